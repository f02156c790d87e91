//! The archive's trace checker: the kept traces get their answers, and traces
//! with one record changed get the model's, and traces of many epochs too.
#![allow(unsafe_code)]

use std::collections::BTreeMap;
use std::fs;
use std::path::{Path, PathBuf};

use model::message::Tx;
use model::rng::Rng;
use model::trace::{self, Record, Verdict};

#[link(name = "cabinet", kind = "static")]
extern "C" {
    fn zab_check(n: u32, recs: *const u8, recs_len: usize, told: *mut u8, told_len: usize) -> u8;
}

/// What is told where no record is named.
const UNTOLD: [u8; 8] = [0xA5; 8];

/// The five words of a record; a kind that is not known is 9.
fn words(record: &Record) -> [u64; 5] {
    let entry = |kind, server, tx: &Tx| [kind, server, tx.id >> 32, tx.id & 0xffff_ffff, tx.value];
    match record {
        Record::E { server, epoch } => [1, *server, u64::from(*epoch), 0, 0],
        Record::B { server, tx } => entry(2, *server, tx),
        Record::V { server, tx } => entry(3, *server, tx),
        Record::X { line, refusal } => [4, *line, *refusal, 0, 0],
        Record::Unknown => [9, 0, 0, 0, 0],
    }
}

/// The archive's answer on bytes.
fn judged(n: u32, bytes: &[u8]) -> Verdict {
    let mut told = UNTOLD;
    // Each pointer comes with the length of the bytes that it points to, and
    // they do not overlap.
    let code = unsafe {
        zab_check(
            n,
            bytes.as_ptr(),
            bytes.len(),
            told.as_mut_ptr(),
            told.len(),
        )
    };
    match code {
        0 | 13 => assert_eq!(told, UNTOLD),
        _ => assert!((1..=6).contains(&code)),
    }
    match code {
        0 => Verdict::Yes,
        13 => Verdict::Refused,
        rule => Verdict::Breaks {
            record: u64::from_le_bytes(told) as usize,
            rule: u32::from(rule),
        },
    }
}

fn archive(n: u64, records: &[Record]) -> Verdict {
    let words = records.iter().flat_map(words);
    let bytes: Vec<u8> = words.flat_map(u64::to_le_bytes).collect();
    judged(u32::try_from(n).unwrap_or(u32::MAX), &bytes)
}

fn testdata() -> PathBuf {
    Path::new(env!("CARGO_MANIFEST_DIR")).join("testdata")
}

/// The kept traces: name, n, records, answer.
fn kept() -> Vec<(String, u64, Vec<Record>, String)> {
    let answers = fs::read_to_string(testdata().join("answers.txt")).unwrap();
    let read = |line: &str| {
        let (name, answer) = line.split_once(' ').unwrap();
        let text = fs::read_to_string(testdata().join(format!("{name}.trace"))).unwrap();
        let (n, records) = trace::parse(&text).unwrap();
        (name.to_string(), n, records, answer.to_string())
    };
    answers.lines().map(read).collect()
}

#[test]
fn kept_traces_get_their_answers() {
    let kept = kept();
    assert_eq!(kept.len(), 420);
    for (name, n, records, answer) in kept {
        assert_eq!(archive(n, &records).to_string(), answer, "{name}");
    }
}

/// One record moved to another place, doubled, lost, or with one field changed.
fn changed(rng: &mut Rng, records: &[Record]) -> Vec<Record> {
    let mut records = records.to_vec();
    let (at, to) = (rng.index(records.len()), rng.index(records.len()));
    match rng.below(5) {
        0 => records.swap(at, to),
        1 => records.insert(to, records[at]),
        2 => {
            records.remove(at);
        }
        _ => records[at] = with_a_field_changed(rng, records[at]),
    }
    records
}

fn with_a_field_changed(rng: &mut Rng, record: Record) -> Record {
    let Tx { id, value } = match record {
        Record::B { tx, .. } | Record::V { tx, .. } => tx,
        _ => Tx {
            id: 1 << 32,
            value: 0,
        },
    };
    let near = [0, 1, u64::MAX, 1 << 32];
    let tx = Tx {
        id: id.wrapping_add(rng.pick(&near)),
        value: value.wrapping_add(rng.below(2)),
    };
    let server = rng.below(8);
    match rng.below(4) {
        0 => Record::E {
            server,
            epoch: (tx.id >> 32) as u32,
        },
        1 => Record::B { server, tx },
        2 => Record::V { server, tx },
        _ => record,
    }
}

#[test]
fn changed_traces_get_the_models_answer() {
    let mut rng = Rng::new(21);
    let mut rules = [0; 7];
    for (name, n, records, _) in kept() {
        for _ in 0..if records.is_empty() { 0 } else { 20 } {
            let records = changed(&mut rng, &records);
            let verdict = trace::check(n, &records);
            assert_eq!(archive(n, &records), verdict, "{name}: {records:?}");
            if let Verdict::Breaks { rule, .. } = verdict {
                rules[rule as usize] += 1;
            }
        }
    }
    assert!(rules[1..].iter().all(|hits| *hits > 50), "{rules:?}");
}

/// A trace of E and B alone, whose epochs come in any order and differ in low or
/// in high bits.
fn of_many_epochs(rng: &mut Rng) -> Vec<Record> {
    let shift = rng.below(26);
    let mut known = BTreeMap::new();
    let mut record = || {
        let epoch = ((rng.below(64) + 1) << shift) as u32;
        let Some((server, count)) = known.get_mut(&epoch) else {
            let server = rng.below(7);
            known.insert(epoch, (server, 0));
            return Record::E { server, epoch };
        };
        *count += 1;
        let id = u64::from(epoch) << 32 | *count;
        Record::B {
            server: *server,
            tx: Tx { id, value: 0 },
        }
    };
    (0..200).map(|_| record()).collect()
}

#[test]
fn traces_of_many_epochs_get_the_models_answer() {
    let mut rng = Rng::new(22);
    for _ in 0..1_000 {
        let records = of_many_epochs(&mut rng);
        assert_eq!(archive(7, &records), Verdict::Yes, "{records:?}");
        let records = changed(&mut rng, &records);
        let verdict = trace::check(7, &records);
        assert_eq!(archive(7, &records), verdict, "{records:?}");
    }
}

#[test]
fn bytes_of_no_whole_records_are_refused() {
    for (_, n, records, _) in kept().into_iter().take(40) {
        let words = records.iter().flat_map(words);
        let bytes: Vec<u8> = words.flat_map(u64::to_le_bytes).collect();
        for lost in (1..40).filter(|lost| *lost <= bytes.len()) {
            assert_eq!(judged(n as u32, &bytes[lost..]), Verdict::Refused);
        }
    }
}
