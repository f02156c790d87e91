//! The generator over 200,000 inputs: every taken step keeps well-formedness,
//! a refusal changes nothing, and all that can be hit is hit.

use model::coverage::Coverage;
use model::formed::well_formed;
use model::gen::{odd_bytes, Inputs};
use model::input::{Outcome, StepInput};
use model::message::{fault, KINDS};
use model::rng::Rng;
use model::server::{Cell, Server, Sizes, TABLE};
use model::words::{outbox_slot_words, read_message, unpack, Loan, OUTBOX, TAKEN};

const COUNT: usize = 200_000;
const SEED: u64 = 1;

fn server_of(input: &StepInput) -> Option<(Sizes, Server)> {
    let record = input.record()?;
    let loan = Loan {
        n: input.n,
        room: input.room,
        record: &record,
        hist: &input.hist,
        cand: &input.cand,
        event: input.event,
        msg: &input.msg,
        out: input.out.len(),
    };
    unpack(&loan).ok()
}

/// The input that the outcome would be lent as.
fn lent_again(input: &StepInput, outcome: &Outcome) -> StepInput {
    StepInput {
        record: outcome.record,
        hist: outcome.hist.clone(),
        cand: outcome.cand.clone(),
        ..input.clone()
    }
}

/// Durable state never goes back: p, a and d do not fall, and the delivered
/// transactions stay.
fn keeps_durable(before: &Server, after: &Server) {
    assert!(before.p <= after.p && before.a <= after.a && before.d <= after.d);
    assert!(after.delivered().starts_with(before.delivered()));
    assert_eq!(before.me, after.me);
}

/// Well-formed messages to other servers in the first slots, and every other
/// word of the outbox as it was.
fn keeps_outbox(input: &StepInput, outcome: &Outcome, sizes: Sizes, me: u8) {
    let slot = outbox_slot_words(sizes.room());
    let sent = outcome.sent as usize;
    assert!(sent <= OUTBOX);
    for words in outcome.out.chunks_exact(slot).take(sent) {
        assert!(words[0] < sizes.n() as u64 && words[0] != u64::from(me));
        let message = read_message(&words[1..], sizes.room()).expect("a message");
        assert_eq!(fault(&message, sizes.room()), None);
    }
    assert_eq!(outcome.out[sent * slot..], input.out[sent * slot..]);
    assert_eq!(outcome.out.len(), input.out.len());
}

fn holds(input: &StepInput, outcome: &Outcome) {
    if outcome.code != TAKEN {
        assert_eq!(*outcome, input.unchanged(outcome.code));
        return;
    }
    let (sizes, before) = server_of(input).expect("a taken step had a server");
    let (_, after) = server_of(&lent_again(input, outcome)).expect("words stay well formed");
    assert!(well_formed(sizes, &after), "{input:?}");
    keeps_durable(&before, &after);
    keeps_outbox(input, outcome, sizes, before.me);
    assert_eq!(outcome.empties, matches!(input.event, 1 | 2));
}

#[test]
fn every_refusal_and_every_cell_is_hit() {
    let mut coverage = Coverage::default();
    for input in Inputs::new(SEED).take(COUNT) {
        let outcome = input.run();
        holds(&input, &outcome);
        coverage.note(&input, &outcome);
    }
    println!("{}", coverage.report());
    assert_eq!(coverage.missing(), Vec::<String>::new());
}

#[test]
fn taken_cells_are_the_tables() {
    let mut coverage = Coverage::default();
    for input in Inputs::new(SEED + 1).take(COUNT / 4) {
        coverage.note(&input, &input.run());
    }
    for kind in KINDS {
        let taken = coverage.cells[kind.row()].map(|codes| codes[0] > 0);
        assert_eq!(taken, TABLE[kind.row()].map(|cell| cell == Cell::Taken));
    }
}

#[test]
fn bytes_give_the_same_answer() {
    for input in Inputs::new(SEED + 2).take(COUNT / 10) {
        assert_eq!(input.bytes().outcome(), Some(input.run()));
    }
}

/// Bytes of any length: the answer of the words that they hold, or STATE; and
/// a refusal changes nothing.
#[test]
fn odd_lengths_of_bytes_are_answered() {
    let mut rng = Rng::new(SEED + 3);
    let mut codes = [0; 12];
    for input in Inputs::new(SEED + 3).take(COUNT / 10) {
        let mut bytes = odd_bytes(&mut rng, &input);
        let before = bytes.clone();
        let answer = bytes.run();
        let wanted = before.words().map_or((1, 0, false), |words| {
            let outcome = words.run();
            (outcome.code, outcome.sent, outcome.empties)
        });
        assert_eq!(answer, wanted);
        assert!(answer.0 == TAKEN || bytes == before);
        codes[answer.0 as usize] += 1;
    }
    assert!(codes[0] > 500 && codes[1] > 5_000, "{codes:?}");
}

#[test]
fn the_same_seed_gives_the_same_inputs() {
    let two = || Inputs::new(7).take(500);
    assert!(two().eq(two()));
    assert!(!two().eq(Inputs::new(8).take(500)));
}
