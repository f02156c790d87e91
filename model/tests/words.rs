//! The words of messages, records and outboxes.

use model::bytes::{bytes_of, record_of, record_words, words_of};
use model::message::{fault, identifier, Fault, Message, Tx};
use model::server::{Server, F1};
use model::words::{
    message_words, outbox_slot_words, read_message, step_words, Record, EVENT_DELIVERY,
    EVENT_ORACLE, EVENT_RESTART,
};

const ROOM: usize = 2;

fn tx(epoch: u32, counter: u32, value: u64) -> Tx {
    let id = identifier(epoch, counter);
    Tx { id, value }
}

fn messages() -> Vec<(Message, [u64; 8])> {
    let history = vec![tx(1, 1, 7), tx(1, 2, 8)];
    let (one, two) = (identifier(1, 1), identifier(1, 2));
    let e = 3;
    vec![
        (Message::Cepoch { p: 0 }, [1, 0, 0, 0, 0, 0, 0, 0]),
        (Message::NewEpoch { e }, [2, 3, 0, 0, 0, 0, 0, 0]),
        (
            Message::AckE {
                e,
                a: 1,
                history: history.clone(),
            },
            [3, 3, 1, 2, one, 7, two, 8],
        ),
        (
            Message::NewLeader { e, history },
            [4, 3, 0, 2, one, 7, two, 8],
        ),
        (Message::AckLd { e, count: 2 }, [5, 3, 2, 0, 0, 0, 0, 0]),
        (Message::CommitLd { e, count: 2 }, [6, 3, 2, 0, 0, 0, 0, 0]),
        (
            Message::Propose {
                e: 1,
                place: 2,
                tx: tx(1, 2, 8),
            },
            [7, 1, 2, 1, two, 8, 0, 0],
        ),
        (Message::Ack { e, place: 2 }, [8, 3, 2, 0, 0, 0, 0, 0]),
        (Message::Commit { e, count: 2 }, [9, 3, 2, 0, 0, 0, 0, 0]),
    ]
}

#[test]
fn messages_have_these_words() {
    for (message, words) in messages() {
        assert_eq!(message_words(&message, ROOM), words);
        assert_eq!(read_message(&words, ROOM), Ok(message.clone()));
        assert_eq!(fault(&message, ROOM), None);
    }
}

/// Every word of a slot that a kind has no field in must be zero.
#[test]
fn a_word_past_the_fields_is_malformed() {
    for (message, words) in messages() {
        for at in 2..words.len() {
            if words[at] == 0 {
                let mut changed = words;
                changed[at] = 1;
                let read = read_message(&changed, ROOM);
                assert!(read.is_err(), "{message:?} {at}");
            }
        }
    }
}

#[test]
fn what_the_paper_lists_is_malformed() {
    let id = identifier(1, 1);
    let first = |words: [u64; 8]| match read_message(&words, ROOM) {
        Ok(message) => fault(&message, ROOM),
        Err(fault) => Some(fault),
    };
    let over = 1 << 32;
    assert_eq!(first([0, 1, 0, 0, 0, 0, 0, 0]), Some(Fault::UnknownKind));
    assert_eq!(first([10, 1, 0, 0, 0, 0, 0, 0]), Some(Fault::UnknownKind));
    assert_eq!(first([1, over, 0, 0, 0, 0, 0, 0]), Some(Fault::OverWidth));
    assert_eq!(first([8, 1, over, 0, 0, 0, 0, 0]), Some(Fault::OverWidth));
    assert_eq!(first([2, 0, 0, 0, 0, 0, 0, 0]), Some(Fault::EpochZero));
    assert_eq!(first([1, 0, 0, 0, 0, 0, 0, 0]), None);
    assert_eq!(first([8, 1, 0, 0, 0, 0, 0, 0]), Some(Fault::PlaceZero));
    assert_eq!(first([7, 1, 0, 1, id, 0, 0, 0]), Some(Fault::PlaceZero));
    assert_eq!(first([9, 1, 0, 0, 0, 0, 0, 0]), Some(Fault::CountZero));
    assert_eq!(first([5, 1, 0, 0, 0, 0, 0, 0]), None);
    assert_eq!(first([6, 1, 0, 0, 0, 0, 0, 0]), None);
    assert_eq!(
        first([4, 1, 0, 3, id, 0, id + 1, 0]),
        Some(Fault::HistoryOverRoom)
    );
    assert_eq!(
        first([4, 1, 0, 2, id, 0, id, 0]),
        Some(Fault::HistoryNotRising)
    );
    assert_eq!(
        first([3, 3, 0, 1, id, 0, 0, 0]),
        Some(Fault::HistoryEpochAbove)
    );
    assert_eq!(
        first([4, 1, 0, 1, 2 * id, 0, 0, 0]),
        Some(Fault::HistoryEpochAbove)
    );
    assert_eq!(
        first([4, 1, 0, 1, 5, 0, 0, 0]),
        Some(Fault::HistoryEpochZero)
    );
    assert_eq!(
        first([4, 1, 0, 1, over, 0, 0, 0]),
        Some(Fault::HistoryCounterZero)
    );
    assert_eq!(
        first([3, 3, 3, 0, 0, 0, 0, 0]),
        Some(Fault::AcceptedNotBelow)
    );
    assert_eq!(first([7, 2, 1, 1, id, 0, 0, 0]), Some(Fault::ProposeEpoch));
    assert_eq!(
        first([7, 1, 1, 1, over, 0, 0, 0]),
        Some(Fault::ProposeCounterZero)
    );
    assert_eq!(first([7, 1, 1, 0, id, 0, 0, 0]), Some(Fault::PastFields));
    assert_eq!(first([7, 1, 1, 2, id, 0, id, 0]), Some(Fault::PastFields));
}

#[test]
fn records_have_38_words() {
    let record = Record {
        me: 1,
        stage: 2,
        oracle: 3,
        p: 4,
        a: 5,
        d: 6,
        len: 7,
        largest: 8,
        cand_a: 9,
        cand_len: 10,
        joined: [true, false, false, false, false, false, true],
        acked: [false, true, false, false, false, false, false],
        synced: [false, false, true, false, false, false, false],
        counts: [11, 12, 13, 14, 15, 16, 17],
    };
    let words = record_words(&record);
    assert_eq!(words[..10], [1, 2, 3, 4, 5, 6, 7, 8, 9, 10]);
    assert_eq!(words[10..17], [1, 0, 0, 0, 0, 0, 1]);
    assert_eq!(words[17..24], [0, 1, 0, 0, 0, 0, 0]);
    assert_eq!(words[24..31], [0, 0, 1, 0, 0, 0, 0]);
    assert_eq!(words[31..], [11, 12, 13, 14, 15, 16, 17]);
    assert_eq!(record_of(&words), Some(record));
}

#[test]
fn a_word_over_its_width_is_no_record() {
    for at in 0..38 {
        let (widest, over) = match at {
            0..=2 => (255, 256),
            10..=30 => (1, 2),
            _ => ((1 << 32) - 1, 1 << 32),
        };
        let mut words = [0; 38];
        words[at] = widest;
        assert!(record_of(&words).is_some());
        words[at] = over;
        assert!(record_of(&words).is_none());
    }
}

#[test]
fn bytes_are_eight_to_a_word_lowest_first() {
    let bytes = [1, 2, 0, 0, 0, 0, 0, 128, 255, 0, 0, 0, 0, 0, 0, 0];
    let words = [0x8000_0000_0000_0201, 255];
    assert_eq!(words_of(&bytes), Some(words.to_vec()));
    assert_eq!(bytes_of(&words), bytes);
    assert_eq!(words_of(&bytes[1..]), None);
}

/// A fresh server's step with so many words lent.
fn fresh_step(event: u64, msg: usize, out: usize) -> (u32, u32, bool, Record, Vec<u64>) {
    let (mut hist, mut cand) = (vec![0; 2 * ROOM], vec![0; 2 * ROOM]);
    let record = Record::of(&Server::fresh(0));
    let mut outbox = vec![99; out];
    let (code, sent, empties, after) = step_words(
        3,
        ROOM as u64,
        record,
        &mut hist,
        &mut cand,
        event,
        1,
        0,
        &vec![0; msg],
        &mut outbox,
    );
    (code, sent, empties, after, outbox)
}

#[test]
fn a_written_slot_is_written_whole_and_no_other_changes() {
    let slot = outbox_slot_words(ROOM);
    let (code, sent, empties, after, out) = fresh_step(EVENT_ORACLE, 0, 6 * slot);
    assert_eq!((code, sent, empties, after.stage), (0, 1, true, F1));
    assert_eq!(out[..slot], [1, 1, 0, 0, 0, 0, 0, 0, 0]);
    assert!(out[slot..].iter().all(|word| *word == 99));
}

#[test]
fn an_outbox_under_six_slots_is_state() {
    let slot = outbox_slot_words(ROOM);
    let (code, _, _, after, out) = fresh_step(EVENT_ORACLE, 0, 6 * slot - 1);
    assert_eq!((code, after), (1, Record::of(&Server::fresh(0))));
    assert!(out.iter().all(|word| *word == 99));
    assert_eq!(fresh_step(EVENT_RESTART, 0, 6 * slot + 1).0, 0);
}

#[test]
fn only_a_delivery_looks_at_the_message() {
    let out = 6 * outbox_slot_words(ROOM);
    assert_eq!(fresh_step(EVENT_RESTART, 3, out).0, 0);
    assert_eq!(fresh_step(EVENT_DELIVERY, 3, out).0, 1);
    assert_eq!(fresh_step(EVENT_DELIVERY, 8, out).0, 3);
    assert_eq!(fresh_step(77, 3, out).0, 2);
}
