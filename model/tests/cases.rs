//! The paper's cases P1 to P10, its tempting errors, and the points that it
//! leaves open.

use model::formed::well_formed;
use model::message::{identifier, Kind, Message, Tx, KINDS, LAST};
use model::server::{
    step, Answer, Cell, Event, Refusal, Server, Sizes, Taken, F1, F2, F3, F4, L1, L2, L3, L4, LOOK,
    TABLE,
};

fn sizes(n: u64, room: u64) -> Sizes {
    Sizes::of(n, room).unwrap()
}

/// Transactions with these epochs and counters, each with its place as value.
fn txs(ids: &[(u32, u32)]) -> Vec<Tx> {
    let tx = |(k, (e, c)): (usize, &(u32, u32))| Tx {
        id: identifier(*e, *c),
        value: k as u64,
    };
    ids.iter().enumerate().map(tx).collect()
}

fn set(members: &[usize]) -> [bool; 7] {
    let mut set = [false; 7];
    for member in members {
        set[*member] = true;
    }
    set
}

fn follower(stage: u8, p: u32, a: u32, history: Vec<Tx>, d: u32) -> Server {
    Server {
        me: 1,
        stage,
        oracle: 1,
        p,
        a,
        d,
        history,
        ..Server::default()
    }
}

/// Server 0 leading, with these joined.
fn leader(stage: u8, p: u32, a: u32, history: Vec<Tx>, d: u32, joined: &[usize]) -> Server {
    Server {
        stage,
        oracle: 1,
        p,
        a,
        d,
        history,
        joined: set(joined),
        ..Server::default()
    }
}

fn given(sizes: Sizes, server: &Server, from: u64, message: Message) -> Answer {
    assert!(well_formed(sizes, server), "{server:?}");
    let message = Some(message);
    let answer = step(sizes, server, &Event::Deliver { from, message });
    if let Ok(taken) = &answer {
        assert!(well_formed(sizes, &taken.next));
    }
    answer
}

fn quiet(next: Server) -> Answer {
    Ok(Taken {
        next,
        sent: vec![],
        empties: false,
    })
}

/// A leader in L2 at epoch 3 of three servers, with its own candidate.
fn choosing(a: u32, history: Vec<Tx>) -> Server {
    Server {
        acked: set(&[0]),
        cand_a: a,
        candidate: history.clone(),
        ..leader(L2, 3, a, history, 0, &[0, 1, 2])
    }
}

#[test]
fn p1_quorum_of_four() {
    let four = sizes(4, 1);
    assert!(!four.quorum(&set(&[0, 1])));
    assert!(four.quorum(&set(&[0, 1, 2])));
}

#[test]
fn p2_accepted_epoch_comes_before_the_last_identifier() {
    let held = choosing(1, txs(&[(1, 1), (1, 2), (1, 3)]));
    let history = txs(&[(1, 1)]);
    let message = Message::AckE {
        e: 3,
        a: 2,
        history: history.clone(),
    };
    let taken = given(sizes(3, 4), &held, 1, message).unwrap();
    assert_eq!(taken.next.history, history);
    assert_eq!((taken.next.stage, taken.next.a), (L3, 3));
    let sent = Message::NewLeader { e: 3, history };
    assert_eq!(taken.sent, [(1, sent.clone()), (2, sent)]);
}

/// A leader that holds `own`, accepted in epoch `a`, keeps it when a follower
/// tells `history`, accepted in epoch 1.
fn own_stays(a: u32, own: Vec<Tx>, history: Vec<Tx>) {
    let held = choosing(a, own.clone());
    let message = Message::AckE {
        e: 3,
        a: 1,
        history,
    };
    let taken = given(sizes(3, 4), &held, 1, message).unwrap();
    assert_eq!(taken.next.history, own);
}

#[test]
fn p2_the_other_way_round() {
    own_stays(2, txs(&[(1, 1)]), txs(&[(1, 1), (1, 2), (1, 3)]));
}

#[test]
fn p3_equal_pairs_the_earlier_stays() {
    let own = txs(&[(1, 1)]);
    let mut history = own.clone();
    history[0].value = 77;
    own_stays(1, own, history);
}

#[test]
fn p4_the_next_epoch_is_the_last() {
    let mut server = leader(L1, LAST - 1, 0, vec![], 0, &[0]);
    server.largest = LAST - 1;
    let taken = given(sizes(3, 4), &server, 1, Message::Cepoch { p: 0 }).unwrap();
    assert_eq!((taken.next.p, taken.next.stage), (LAST, L2));
    assert_eq!(taken.sent, [(1, Message::NewEpoch { e: LAST })]);
}

#[test]
fn p5_one_more_is_spent() {
    let mut server = leader(L1, LAST, 0, vec![], 0, &[0]);
    server.largest = LAST;
    let answer = given(sizes(3, 4), &server, 1, Message::Cepoch { p: 0 });
    assert_eq!(answer, Err(Refusal::Spent));
    let mut held = leader(L1, 0, 0, vec![], 0, &[0]);
    held.largest = 5;
    let answer = given(sizes(3, 4), &held, 1, Message::Cepoch { p: LAST });
    assert_eq!(answer, Err(Refusal::Spent));
    assert!(given(sizes(5, 4), &held, 1, Message::Cepoch { p: LAST }).is_ok());
}

#[test]
fn p6_newepoch_equal_to_p_sends_nothing() {
    let server = follower(F1, 4, 2, txs(&[(1, 1)]), 0);
    let next = Server {
        stage: F2,
        ..server.clone()
    };
    let answer = given(sizes(3, 4), &server, 0, Message::NewEpoch { e: 4 });
    assert_eq!(answer, quiet(next));
}

#[test]
fn newepoch_above_p_is_acknowledged_once() {
    let server = follower(F1, 4, 2, txs(&[(1, 1)]), 0);
    let taken = given(sizes(3, 4), &server, 0, Message::NewEpoch { e: 6 }).unwrap();
    assert_eq!((taken.next.p, taken.next.a, taken.next.stage), (6, 2, F2));
    let sent = Message::AckE {
        e: 6,
        a: 2,
        history: txs(&[(1, 1)]),
    };
    assert_eq!(taken.sent, [(0, sent)]);
    let again = given(sizes(3, 4), &taken.next, 0, Message::NewEpoch { e: 6 });
    assert_eq!(again, Err(Refusal::Phase));
    let below = given(sizes(3, 4), &server, 0, Message::NewEpoch { e: 3 });
    assert_eq!(below, Err(Refusal::Epoch));
}

fn proposal(e: u32, place: u32, counter: u32) -> Message {
    Message::Propose {
        e,
        place,
        tx: Tx {
            id: identifier(e, counter),
            value: 9,
        },
    }
}

#[test]
fn p7_propose_past_the_next_place_is_a_gap() {
    let server = follower(F4, 2, 2, txs(&[(2, 1)]), 0);
    let three = sizes(3, 4);
    assert_eq!(
        given(three, &server, 0, proposal(2, 3, 2)),
        Err(Refusal::Gap)
    );
    let taken = given(three, &server, 0, proposal(2, 2, 2)).unwrap();
    assert_eq!(taken.sent, [(0, Message::Ack { e: 2, place: 2 })]);
    assert_eq!(taken.next.length(), 2);
}

#[test]
fn propose_at_length_h() {
    let server = follower(F3, 2, 2, txs(&[(2, 1), (2, 2)]), 0);
    let two = sizes(3, 2);
    assert_eq!(
        given(two, &server, 0, proposal(2, 3, 3)),
        Err(Refusal::Full)
    );
    assert_eq!(given(two, &server, 0, proposal(2, 2, 3)), Err(Refusal::Gap));
    assert_eq!(given(two, &server, 0, proposal(2, 3, 4)), Err(Refusal::Gap));
}

#[test]
fn p8_submission_at_length_h_is_full() {
    let server = leader(L4, 1, 1, txs(&[(1, 1), (1, 2)]), 2, &[0, 1]);
    let answer = step(sizes(3, 2), &server, &Event::Submit(5));
    assert_eq!(answer, Err(Refusal::Full));
    let taken = step(sizes(3, 3), &server, &Event::Submit(5)).unwrap();
    let tx = Tx {
        id: identifier(1, 3),
        value: 5,
    };
    let sent = Message::Propose { e: 1, place: 3, tx };
    assert_eq!(taken.sent, [(1, sent)]);
}

#[test]
fn submission_after_the_last_counter_is_full() {
    let server = leader(L4, 1, 1, txs(&[(1, LAST)]), 0, &[0]);
    let answer = step(sizes(3, 2), &server, &Event::Submit(5));
    assert_eq!(answer, Err(Refusal::Full));
    let older = leader(L4, 2, 2, txs(&[(1, LAST)]), 0, &[0]);
    let taken = step(sizes(3, 2), &older, &Event::Submit(5)).unwrap();
    assert_eq!(taken.next.history[1].id, identifier(2, 1));
}

#[test]
fn p9_commit_below_d_changes_nothing() {
    let server = follower(F4, 2, 2, txs(&[(2, 1), (2, 2)]), 2);
    let answer = given(sizes(3, 4), &server, 0, Message::Commit { e: 2, count: 1 });
    assert_eq!(answer, quiet(server));
}

#[test]
fn p10_newleader_shorter_than_d_is_undo() {
    let server = follower(F2, 3, 1, txs(&[(1, 1), (1, 2)]), 2);
    let message = |history| Message::NewLeader { e: 3, history };
    let short = given(sizes(3, 4), &server, 0, message(txs(&[(1, 1)])));
    assert_eq!(short, Err(Refusal::Undo));
    let taken = given(sizes(3, 4), &server, 0, message(txs(&[(1, 1), (1, 2)]))).unwrap();
    assert_eq!((taken.next.a, taken.next.stage), (3, F3));
    assert_eq!(taken.sent, [(0, Message::AckLd { e: 3, count: 2 })]);
}

#[test]
fn undo_compares_whole_transactions() {
    let server = follower(F2, 3, 1, txs(&[(1, 1)]), 1);
    let mut history = txs(&[(1, 1)]);
    history[0].value = 8;
    let answer = given(
        sizes(3, 4),
        &server,
        0,
        Message::NewLeader { e: 3, history },
    );
    assert_eq!(answer, Err(Refusal::Undo));
}

#[test]
fn newleader_above_p_is_refused() {
    let server = follower(F2, 3, 1, vec![], 0);
    let history = vec![];
    let answer = given(
        sizes(3, 4),
        &server,
        0,
        Message::NewLeader { e: 4, history },
    );
    assert_eq!(answer, Err(Refusal::Epoch));
}

#[test]
fn commit_ld_delivers_only_its_count() {
    let server = follower(F3, 2, 2, txs(&[(1, 1), (2, 1)]), 0);
    for (count, told) in [
        (0, Ok((0, F4))),
        (1, Ok((1, F4))),
        (2, Ok((2, F4))),
        (3, Err(Refusal::Gap)),
    ] {
        let answer = given(sizes(3, 4), &server, 0, Message::CommitLd { e: 2, count });
        assert_eq!(answer.map(|taken| (taken.next.d, taken.next.stage)), told);
    }
}

#[test]
fn a_rejoiner_leaves_synced_and_keeps_its_count() {
    let mut server = leader(L4, 2, 2, txs(&[(2, 1)]), 1, &[0, 1]);
    server.synced = set(&[0, 1]);
    server.counts[1] = 1;
    let taken = given(sizes(3, 4), &server, 1, Message::Cepoch { p: 2 }).unwrap();
    assert_eq!(taken.next.synced, set(&[0]));
    assert_eq!(taken.next.counts[1], 1);
    let whole = Message::NewLeader {
        e: 2,
        history: txs(&[(2, 1)]),
    };
    assert_eq!(taken.sent, [(1, Message::NewEpoch { e: 2 }), (1, whole)]);
    let ahead = given(sizes(3, 4), &server, 1, Message::Cepoch { p: 3 });
    assert_eq!(ahead, Err(Refusal::Epoch));
}

#[test]
fn ack_e_already_counted_is_phase_even_with_another_epoch() {
    let mut server = choosing(1, vec![]);
    server.acked = set(&[1]);
    let message = |e| Message::AckE {
        e,
        a: 0,
        history: vec![],
    };
    assert_eq!(
        given(sizes(5, 4), &server, 1, message(9)),
        Err(Refusal::Phase)
    );
    assert_eq!(
        given(sizes(5, 4), &server, 2, message(9)),
        Err(Refusal::Epoch)
    );
    assert_eq!(
        given(sizes(5, 4), &server, 3, message(9)),
        Err(Refusal::Sender)
    );
}

#[test]
fn ack_in_l1_from_one_not_joined_is_sender() {
    let server = leader(L1, 0, 0, vec![], 0, &[0, 2]);
    let message = Message::Ack { e: 1, place: 1 };
    let not_joined = given(sizes(5, 4), &server, 1, message.clone());
    assert_eq!(not_joined, Err(Refusal::Sender));
    let joined = given(sizes(5, 4), &server, 2, message);
    assert_eq!(joined, Err(Refusal::Phase));
}

#[test]
fn ack_ld_in_l3_takes_the_whole_length_and_delivers_it() {
    let mut server = leader(L3, 2, 2, txs(&[(1, 1), (1, 2)]), 0, &[0, 1, 2]);
    server.synced = set(&[0]);
    let short = given(sizes(3, 4), &server, 1, Message::AckLd { e: 2, count: 1 });
    assert_eq!(short, Err(Refusal::Gap));
    let taken = given(sizes(3, 4), &server, 1, Message::AckLd { e: 2, count: 2 }).unwrap();
    assert_eq!((taken.next.stage, taken.next.d), (L4, 2));
    assert_eq!(taken.sent, [(1, Message::CommitLd { e: 2, count: 2 })]);
}

#[test]
fn ack_ld_in_l4_commits_to_others_and_then_welcomes() {
    let mut server = leader(L4, 2, 2, txs(&[(1, 1), (2, 1)]), 1, &[0, 1, 2, 3]);
    server.synced = set(&[0, 1, 3]);
    server.counts[1] = 2;
    let taken = given(sizes(5, 4), &server, 2, Message::AckLd { e: 2, count: 2 }).unwrap();
    assert_eq!(taken.next.d, 2);
    let commit = Message::Commit { e: 2, count: 2 };
    let welcome = Message::CommitLd { e: 2, count: 2 };
    assert_eq!(taken.sent, [(1, commit.clone()), (3, commit), (2, welcome)]);
}

#[test]
fn advance_uses_the_leader_and_not_its_own_count() {
    let mut server = leader(L4, 1, 1, txs(&[(1, 1), (1, 2), (1, 3)]), 0, &[0, 1, 2]);
    server.synced = set(&[0, 1, 2]);
    server.counts = [0, 1, 1, 0, 0, 0, 0];
    let taken = given(sizes(5, 4), &server, 1, Message::Ack { e: 1, place: 3 }).unwrap();
    assert_eq!(taken.next.d, 1);
    let commit = Message::Commit { e: 1, count: 1 };
    assert_eq!(taken.sent, [(1, commit.clone()), (2, commit)]);
}

#[test]
fn oracle_and_restart_clear_what_is_volatile() {
    let mut server = leader(L4, 2, 2, txs(&[(2, 1)]), 1, &[0, 1]);
    server.synced = set(&[0, 1]);
    server.counts[1] = 1;
    let three = sizes(3, 4);
    let itself = step(three, &server, &Event::Oracle(0)).unwrap();
    assert!(itself.empties && itself.sent.is_empty());
    assert_eq!((itself.next.stage, itself.next.largest), (L1, 2));
    assert_eq!(itself.next.joined, set(&[0]));
    let another = step(three, &server, &Event::Oracle(2)).unwrap();
    assert_eq!((another.next.stage, another.next.oracle), (F1, 3));
    assert_eq!(another.sent, [(2, Message::Cepoch { p: 2 })]);
    let restarted = step(three, &server, &Event::Restart).unwrap();
    assert_eq!((restarted.next.stage, restarted.next.oracle), (LOOK, 0));
    assert_eq!(restarted.next.delivered(), txs(&[(2, 1)]));
    let unknown = step(three, &server, &Event::Oracle(3));
    assert_eq!(unknown, Err(Refusal::Event));
}

/// The sentences of the paper, one for each kind.
#[test]
fn the_table_is_the_papers() {
    let taken: [(Kind, &[u8]); 9] = [
        (Kind::Cepoch, &[L1, L2, L3, L4]),
        (Kind::AckE, &[L2, L3, L4]),
        (Kind::AckLd, &[L3, L4]),
        (Kind::Ack, &[L4]),
        (Kind::NewEpoch, &[F1]),
        (Kind::NewLeader, &[F2]),
        (Kind::CommitLd, &[F3]),
        (Kind::Propose, &[F3, F4]),
        (Kind::Commit, &[F4]),
    ];
    for (kind, stages) in taken {
        let leads = stages[0] >= L1;
        for stage in LOOK..=L4 {
            let same_role = stage != LOOK && (stage >= L1) == leads;
            let wanted = match (stages.contains(&stage), same_role) {
                (true, _) => Cell::Taken,
                (false, true) => Cell::Phase,
                (false, false) => Cell::Role,
            };
            assert_eq!(TABLE[kind.row()][usize::from(stage)], wanted);
        }
    }
    assert_eq!(KINDS.map(Kind::number), [1, 2, 3, 4, 5, 6, 7, 8, 9]);
}
