//! The checker's rules, each alone.

use model::message::{identifier, Tx};
use model::trace::{check, parse, Record, Verdict, MOST};

fn tx(epoch: u32, counter: u32, value: u64) -> Tx {
    let id = identifier(epoch, counter);
    Tx { id, value }
}

fn e(server: u64, epoch: u32) -> Record {
    Record::E { server, epoch }
}

fn b(server: u64, epoch: u32, counter: u32, value: u64) -> Record {
    let tx = tx(epoch, counter, value);
    Record::B { server, tx }
}

fn v(server: u64, epoch: u32, counter: u32, value: u64) -> Record {
    let tx = tx(epoch, counter, value);
    Record::V { server, tx }
}

fn breaks(record: usize, rule: u32) -> Verdict {
    Verdict::Breaks { record, rule }
}

#[test]
fn an_empty_trace_is_accepted() {
    assert_eq!(check(3, &[]), Verdict::Yes);
}

#[test]
fn rule_1_one_leader_for_an_epoch() {
    assert_eq!(check(3, &[e(0, 1), e(1, 2), e(1, 1)]), breaks(2, 1));
    assert_eq!(check(3, &[e(0, 1), e(0, 1)]), breaks(1, 1));
}

#[test]
fn rule_2_broadcasts_follow_their_leader_and_count() {
    assert_eq!(check(3, &[b(0, 1, 1, 5), e(0, 1)]), breaks(0, 2));
    assert_eq!(check(3, &[e(1, 1), b(0, 1, 1, 5)]), breaks(1, 2));
    assert_eq!(check(3, &[e(0, 1), b(0, 1, 2, 5)]), breaks(1, 2));
    let twice = [e(0, 1), b(0, 1, 1, 5), b(0, 1, 1, 5)];
    assert_eq!(check(3, &twice), breaks(2, 2));
}

#[test]
fn rule_3_deliveries_were_broadcast() {
    let start = [e(0, 1), b(0, 1, 1, 5)];
    assert_eq!(check(3, &[start[0], v(1, 1, 1, 5), start[1]]), breaks(1, 3));
    assert_eq!(check(3, &[start[0], start[1], v(1, 1, 1, 6)]), breaks(2, 3));
    assert_eq!(check(3, &[start[0], start[1], v(1, 1, 1, 5)]), Verdict::Yes);
}

#[test]
fn rule_4_one_sequence_begins_the_other() {
    let start = [e(0, 1), b(0, 1, 1, 5), b(0, 1, 2, 6)];
    let mut trace = start.to_vec();
    trace.extend([v(0, 1, 1, 5), v(1, 1, 2, 6)]);
    assert_eq!(check(3, &trace), breaks(4, 4));
}

#[test]
fn rule_5_a_new_leader_has_delivered() {
    let start = [e(0, 1), b(0, 1, 1, 5), v(0, 1, 1, 5), e(1, 2)];
    let mut trace = start.to_vec();
    trace.push(b(1, 2, 1, 7));
    assert_eq!(check(3, &trace), breaks(4, 5));
    let mut trace = start.to_vec();
    trace.extend([v(1, 1, 1, 5), b(1, 2, 1, 7)]);
    assert_eq!(check(3, &trace), Verdict::Yes);
}

/// A V that comes after the B is then the offending record.
#[test]
fn rule_5_counts_a_later_delivery() {
    let trace = [
        e(0, 1),
        b(0, 1, 1, 5),
        e(1, 2),
        b(1, 2, 1, 7),
        v(0, 1, 1, 5),
    ];
    assert_eq!(check(3, &trace), breaks(4, 5));
    assert_eq!(check(3, &trace[..4]), Verdict::Yes);
}

#[test]
fn rule_6_identifiers_rise() {
    let trace = [e(0, 1), b(0, 1, 1, 5), v(0, 1, 1, 5), v(0, 1, 1, 5)];
    assert_eq!(check(3, &trace), breaks(3, 6));
}

#[test]
fn malformed_records_are_refused_even_after_a_break() {
    let broken = [b(0, 1, 1, 5)];
    for bad in [
        e(3, 1),
        e(0, 0),
        b(0, 0, 1, 5),
        v(0, 1, 0, 5),
        v(7, 1, 1, 5),
        Record::Unknown,
    ] {
        assert_eq!(check(3, &[broken[0], bad]), Verdict::Refused);
    }
    assert_eq!(check(2, &[]), Verdict::Refused);
    assert_eq!(check(8, &[]), Verdict::Refused);
}

#[test]
fn a_trace_has_at_most_1024_records() {
    let x = Record::X {
        line: 0,
        refusal: 99,
    };
    assert_eq!(check(3, &vec![x; MOST]), Verdict::Yes);
    assert_eq!(check(3, &vec![x; MOST + 1]), Verdict::Refused);
}

#[test]
fn a_full_trace_is_checked() {
    let mut trace = vec![e(0, 1)];
    for counter in 1..=255 {
        let value = u64::from(counter);
        trace.push(b(0, 1, counter, value));
        trace.extend((0..3).map(|s| v(s, 1, counter, value)));
    }
    assert_eq!(check(3, &trace), Verdict::Yes);
    trace.push(v(2, 1, 255, 255));
    assert_eq!(check(3, &trace), breaks(trace.len() - 1, 6));
}

#[test]
fn text_is_read_back() {
    let text = "TRC 1 3\nE 0 1\nB 0 1 1 40\nV 1 1 1 40\nX 9 2\nQ 1\nV 1 1 1\n";
    let (n, records) = parse(text).unwrap();
    let x = Record::X {
        line: 9,
        refusal: 2,
    };
    let odd = Record::Unknown;
    assert_eq!(n, 3);
    assert_eq!(
        records,
        [e(0, 1), b(0, 1, 1, 40), v(1, 1, 1, 40), x, odd, odd]
    );
    assert_eq!(parse("E 0 1\n"), None);
}
