//! The checker, by brute force from the rules.

use std::fmt;

use crate::message::{identifier, Tx};

/// A trace has at most 1,024 records.
pub const MOST: usize = 1024;

#[derive(Clone, Copy, Debug, PartialEq, Eq)]
pub enum Record {
    /// A server enters L4.
    E { server: u64, epoch: u32 },
    /// A submission taken.
    B { server: u64, tx: Tx },
    /// A transaction newly delivered at a server.
    V { server: u64, tx: Tx },
    /// A refusal, skipped.
    X { line: u64, refusal: u64 },
    /// A record of no known kind.
    Unknown,
}

impl fmt::Display for Record {
    fn fmt(&self, f: &mut fmt::Formatter) -> fmt::Result {
        match self {
            Record::E { server, epoch } => write!(f, "E {server} {epoch}"),
            Record::B { server, tx } => write!(f, "B {server} {}", fields(tx)),
            Record::V { server, tx } => write!(f, "V {server} {}", fields(tx)),
            Record::X { line, refusal } => write!(f, "X {line} {refusal}"),
            Record::Unknown => write!(f, "?"),
        }
    }
}

fn fields(tx: &Tx) -> String {
    let (epoch, counter) = (tx.id >> 32, tx.id & 0xffff_ffff);
    format!("{epoch} {counter} {}", tx.value)
}

#[derive(Clone, Copy, Debug, PartialEq, Eq)]
pub enum Verdict {
    Yes,
    /// The first record, counted from 0, at which the trace so far breaks a
    /// rule, and the lowest such rule.
    Breaks {
        record: usize,
        rule: u32,
    },
    /// TRACE, the checker's only refusal.
    Refused,
}

impl fmt::Display for Verdict {
    fn fmt(&self, f: &mut fmt::Formatter) -> fmt::Result {
        match self {
            Verdict::Yes => write!(f, "yes"),
            Verdict::Breaks { record, rule } => write!(f, "breaks {record} {rule}"),
            Verdict::Refused => write!(f, "refused 13"),
        }
    }
}

/// The six rules, each over a whole trace.
const RULES: [fn(&[Record]) -> bool; 6] = [
    one_leader,
    broadcasts_in_order,
    delivered_was_broadcast,
    one_begins_the_other,
    leader_has_delivered,
    identifiers_rise,
];

pub fn check(n: u64, records: &[Record]) -> Verdict {
    let sized = (3..=7).contains(&n) && records.len() <= MOST;
    if !sized || records.iter().any(|record| malformed(n, record)) {
        return Verdict::Refused;
    }
    for record in 0..records.len() {
        if let Some(rule) = broken(&records[..=record]) {
            return Verdict::Breaks { record, rule };
        }
    }
    Verdict::Yes
}

/// The lowest rule that the trace so far breaks.
fn broken(so_far: &[Record]) -> Option<u32> {
    let at = RULES.iter().position(|rule| !rule(so_far))?;
    Some(at as u32 + 1)
}

/// Unknown kind, server not below n, an E, B or V with epoch or counter zero.
fn malformed(n: u64, record: &Record) -> bool {
    match record {
        Record::E { server, epoch } => *server >= n || *epoch == 0,
        Record::B { server, tx } | Record::V { server, tx } => {
            *server >= n || tx.id >> 32 == 0 || tx.id & 0xffff_ffff == 0
        }
        Record::X { .. } => false,
        Record::Unknown => true,
    }
}

fn epoch(tx: &Tx) -> u64 {
    tx.id >> 32
}

/// The Es with their places: server, epoch.
fn leaders(trace: &[Record]) -> Vec<(usize, u64, u64)> {
    let pick = |(k, record): (usize, &Record)| match record {
        Record::E { server, epoch } => Some((k, *server, u64::from(*epoch))),
        _ => None,
    };
    trace.iter().enumerate().filter_map(pick).collect()
}

/// The Bs with their places: server, transaction.
fn broadcasts(trace: &[Record]) -> Vec<(usize, u64, Tx)> {
    let pick = |(k, record): (usize, &Record)| match record {
        Record::B { server, tx } => Some((k, *server, *tx)),
        _ => None,
    };
    trace.iter().enumerate().filter_map(pick).collect()
}

/// The Vs with their places: server, transaction.
fn deliveries(trace: &[Record]) -> Vec<(usize, u64, Tx)> {
    let pick = |(k, record): (usize, &Record)| match record {
        Record::V { server, tx } => Some((k, *server, *tx)),
        _ => None,
    };
    trace.iter().enumerate().filter_map(pick).collect()
}

/// One server's V sequence.
fn sequence(trace: &[Record], server: u64) -> Vec<Tx> {
    deliveries(trace)
        .into_iter()
        .filter(|(_, s, _)| *s == server)
        .map(|(_, _, tx)| tx)
        .collect()
}

/// (1) One E for an epoch.
fn one_leader(trace: &[Record]) -> bool {
    let es = leaders(trace);
    es.iter()
        .all(|(_, _, e)| es.iter().filter(|(_, _, other)| other == e).count() == 1)
}

/// (2) B comes after that server's E of that epoch; an epoch's counters run
/// 1, 2, 3.
fn broadcasts_in_order(trace: &[Record]) -> bool {
    let es = leaders(trace);
    let bs = broadcasts(trace);
    bs.iter().enumerate().all(|(nth, (k, server, tx))| {
        let led = es
            .iter()
            .any(|(at, s, e)| at < k && s == server && *e == epoch(tx));
        let before = bs[..nth].iter().filter(|b| epoch(&b.2) == epoch(tx));
        led && tx.id & 0xffff_ffff == before.count() as u64 + 1
    })
}

/// (3) V equals an earlier B in epoch, counter and value.
fn delivered_was_broadcast(trace: &[Record]) -> bool {
    let bs = broadcasts(trace);
    deliveries(trace)
        .iter()
        .all(|(k, _, tx)| bs.iter().any(|(at, _, b)| at < k && b == tx))
}

/// (4) Any two servers' V sequences: one begins the other.
fn one_begins_the_other(trace: &[Record]) -> bool {
    let all: Vec<Vec<Tx>> = (0..7).map(|s| sequence(trace, s)).collect();
    all.iter().all(|one| {
        all.iter()
            .all(|other| one.starts_with(other) || other.starts_with(one))
    })
}

/// (5) When a server has a B of epoch e, it has before that B a V of each
/// earlier-epoch transaction with a V anywhere.
fn leader_has_delivered(trace: &[Record]) -> bool {
    let vs = deliveries(trace);
    let mut seen: Vec<Tx> = vs.iter().map(|(_, _, tx)| *tx).collect();
    seen.sort_unstable();
    seen.dedup();
    broadcasts(trace).iter().all(|(k, server, b)| {
        let before = vs.iter().filter(|(at, s, _)| at < k && s == server);
        let mut own: Vec<Tx> = before.map(|(_, _, tx)| *tx).collect();
        own.sort_unstable();
        seen.iter()
            .all(|tx| epoch(tx) >= epoch(b) || own.binary_search(tx).is_ok())
    })
}

/// (6) One server's V identifiers rise.
fn identifiers_rise(trace: &[Record]) -> bool {
    (0..7).all(|s| {
        sequence(trace, s)
            .windows(2)
            .all(|pair| pair[0].id < pair[1].id)
    })
}

/// A trace in the program's format: n of the header, then the records. A line
/// that is no record reads as one of no known kind.
pub fn parse(text: &str) -> Option<(u64, Vec<Record>)> {
    let mut lines = text.lines();
    let n = lines.next()?.strip_prefix("TRC 1 ")?.parse().ok()?;
    Some((n, lines.map(parse_record).collect()))
}

fn parse_record(line: &str) -> Record {
    let (kind, rest) = line.split_once(' ').unwrap_or((line, ""));
    let numbers: Option<Vec<u64>> = rest.split(' ').map(|word| word.parse().ok()).collect();
    match (kind, numbers.as_deref()) {
        ("E", Some(&[server, epoch])) => {
            u32::try_from(epoch).map_or(Record::Unknown, |epoch| Record::E { server, epoch })
        }
        ("B", Some(&[server, epoch, counter, value])) => transaction(epoch, counter, value)
            .map_or(Record::Unknown, |tx| Record::B { server, tx }),
        ("V", Some(&[server, epoch, counter, value])) => transaction(epoch, counter, value)
            .map_or(Record::Unknown, |tx| Record::V { server, tx }),
        ("X", Some(&[line, refusal])) => Record::X { line, refusal },
        _ => Record::Unknown,
    }
}

fn transaction(epoch: u64, counter: u64, value: u64) -> Option<Tx> {
    let id = identifier(u32::try_from(epoch).ok()?, u32::try_from(counter).ok()?);
    Some(Tx { id, value })
}
