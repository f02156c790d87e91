//! The step on lent words.
//!
//! A history is 2 × H words, zero past its length. A message slot is 4 + 2 × H
//! words: the kind, e (for CEPOCH: p), the second number, how many transactions
//! are carried, then the transactions, and zeros. An outbox slot is the
//! receiver and then a message slot.

use crate::message::{Fault, Kind, Message, Tx};
use crate::server::{step, Event, Refusal, Server, Set, Sizes, Taken, SEATS};

/// The code of a step that was taken.
pub const TAKEN: u32 = 0;

pub const EVENT_ORACLE: u64 = 1;
pub const EVENT_RESTART: u64 = 2;
pub const EVENT_DELIVERY: u64 = 3;
pub const EVENT_SUBMISSION: u64 = 4;

/// The outbox has at least six slots.
pub const OUTBOX: usize = 6;

pub fn history_words(room: usize) -> usize {
    2 * room
}

pub fn slot_words(room: usize) -> usize {
    4 + history_words(room)
}

pub fn outbox_slot_words(room: usize) -> usize {
    1 + slot_words(room)
}

/// The record by value: a server without the words of its two histories.
#[derive(Clone, Copy, Debug, Default, PartialEq, Eq)]
pub struct Record {
    pub me: u8,
    pub stage: u8,
    pub oracle: u8,
    pub p: u32,
    pub a: u32,
    pub d: u32,
    pub len: u32,
    pub largest: u32,
    pub cand_a: u32,
    pub cand_len: u32,
    pub joined: Set,
    pub acked: Set,
    pub synced: Set,
    pub counts: [u32; SEATS],
}

impl Record {
    pub fn of(server: &Server) -> Record {
        Record {
            me: server.me,
            stage: server.stage,
            oracle: server.oracle,
            p: server.p,
            a: server.a,
            d: server.d,
            len: server.history.len() as u32,
            largest: server.largest,
            cand_a: server.cand_a,
            cand_len: server.candidate.len() as u32,
            joined: server.joined,
            acked: server.acked,
            synced: server.synced,
            counts: server.counts,
        }
    }

    /// The server with the two histories read from their words.
    fn server(&self, history: Vec<Tx>, candidate: Vec<Tx>) -> Server {
        Server {
            me: self.me,
            stage: self.stage,
            oracle: self.oracle,
            p: self.p,
            a: self.a,
            d: self.d,
            history,
            largest: self.largest,
            cand_a: self.cand_a,
            candidate,
            joined: self.joined,
            acked: self.acked,
            synced: self.synced,
            counts: self.counts,
        }
    }
}

/// What is wrong with the sizes or the lent words, before the record's own
/// clauses are looked at. All of it is STATE.
#[derive(Clone, Copy, Debug, PartialEq, Eq, Hash)]
pub enum Lent {
    Sizes,
    HistoryWords,
    CandidateWords,
    MessageWords,
    Outbox,
    LengthOverRoom,
    CandidateOverRoom,
    PastLength,
    PastCandidate,
}

pub const LENTS: [Lent; 9] = [
    Lent::Sizes,
    Lent::HistoryWords,
    Lent::CandidateWords,
    Lent::MessageWords,
    Lent::Outbox,
    Lent::LengthOverRoom,
    Lent::CandidateOverRoom,
    Lent::PastLength,
    Lent::PastCandidate,
];

/// All that is lent to a step, to be read.
pub struct Loan<'a> {
    pub n: u64,
    pub room: u64,
    pub record: &'a Record,
    pub hist: &'a [u64],
    pub cand: &'a [u64],
    pub event: u64,
    pub msg: &'a [u64],
    pub out: usize,
}

fn ensure(holds: bool, lent: Lent) -> Result<(), Lent> {
    if holds {
        Ok(())
    } else {
        Err(lent)
    }
}

/// The sizes and the server that the lent words hold.
pub fn unpack(loan: &Loan) -> Result<(Sizes, Server), Lent> {
    let sizes = Sizes::of(loan.n, loan.room).ok_or(Lent::Sizes)?;
    let room = sizes.room();
    let record = loan.record;
    let delivery = loan.event == EVENT_DELIVERY;
    ensure(loan.hist.len() == history_words(room), Lent::HistoryWords)?;
    ensure(loan.cand.len() == history_words(room), Lent::CandidateWords)?;
    ensure(
        !delivery || loan.msg.len() == slot_words(room),
        Lent::MessageWords,
    )?;
    ensure(loan.out >= OUTBOX * outbox_slot_words(room), Lent::Outbox)?;
    ensure(record.len as usize <= room, Lent::LengthOverRoom)?;
    ensure(record.cand_len as usize <= room, Lent::CandidateOverRoom)?;
    let history = read_history(loan.hist, record.len as usize).ok_or(Lent::PastLength)?;
    let candidate = read_history(loan.cand, record.cand_len as usize).ok_or(Lent::PastCandidate)?;
    Ok((sizes, record.server(history, candidate)))
}

/// The first `length` transactions, if the words past them are zero.
fn read_history(words: &[u64], length: usize) -> Option<Vec<Tx>> {
    let (kept, past) = words.split_at(2 * length);
    all_zero(past).then(|| pairs(kept))
}

fn pairs(words: &[u64]) -> Vec<Tx> {
    words
        .chunks_exact(2)
        .map(|pair| Tx {
            id: pair[0],
            value: pair[1],
        })
        .collect()
}

fn all_zero(words: &[u64]) -> bool {
    words.iter().all(|word| *word == 0)
}

/// The history, and zero past its length.
pub fn write_history(words: &mut [u64], history: &[Tx]) {
    words.fill(0);
    for (pair, tx) in words.chunks_exact_mut(2).zip(history) {
        pair[0] = tx.id;
        pair[1] = tx.value;
    }
}

/// A message from the words of a slot, or the first thing that makes the words
/// those of no message.
pub fn read_message(words: &[u64], room: usize) -> Result<Message, Fault> {
    let kind = Kind::of(words[0]).ok_or(Fault::UnknownKind)?;
    let e = u32::try_from(words[1]).map_err(|_| Fault::OverWidth)?;
    let second = u32::try_from(words[2]).map_err(|_| Fault::OverWidth)?;
    let carried = carried(kind, words[3], room)?;
    let (txs, past) = words[4..].split_at(2 * carried);
    let spare = second != 0 && !has_second(kind);
    if spare || !all_zero(past) {
        return Err(Fault::PastFields);
    }
    Ok(message(kind, e, second, pairs(txs)))
}

/// How many transactions are carried: a history up to H in ACK-E and
/// NEWLEADER, exactly one in PROPOSE, none elsewhere.
fn carried(kind: Kind, word: u64, room: usize) -> Result<usize, Fault> {
    match kind {
        Kind::AckE | Kind::NewLeader if word > room as u64 => Err(Fault::HistoryOverRoom),
        Kind::AckE | Kind::NewLeader => Ok(word as usize),
        Kind::Propose if word == 1 => Ok(1),
        _ if kind != Kind::Propose && word == 0 => Ok(0),
        _ => Err(Fault::PastFields),
    }
}

fn has_second(kind: Kind) -> bool {
    !matches!(kind, Kind::Cepoch | Kind::NewEpoch | Kind::NewLeader)
}

fn message(kind: Kind, e: u32, second: u32, txs: Vec<Tx>) -> Message {
    match kind {
        Kind::Cepoch => Message::Cepoch { p: e },
        Kind::NewEpoch => Message::NewEpoch { e },
        Kind::AckE => Message::AckE {
            e,
            a: second,
            history: txs,
        },
        Kind::NewLeader => Message::NewLeader { e, history: txs },
        Kind::AckLd => Message::AckLd { e, count: second },
        Kind::CommitLd => Message::CommitLd { e, count: second },
        Kind::Propose => Message::Propose {
            e,
            place: second,
            tx: txs[0],
        },
        Kind::Ack => Message::Ack { e, place: second },
        Kind::Commit => Message::Commit { e, count: second },
    }
}

/// A message written into its own slot, whole: unused words are zero.
pub fn write_message(words: &mut [u64], message: &Message) {
    words[0] = message.kind().number();
    words[1] = u64::from(message.epoch());
    words[2] = u64::from(second(message));
    let one;
    let txs: &[Tx] = match message {
        Message::AckE { history, .. } | Message::NewLeader { history, .. } => history,
        Message::Propose { tx, .. } => {
            one = [*tx];
            &one
        }
        _ => &[],
    };
    words[3] = txs.len() as u64;
    write_history(&mut words[4..], txs);
}

fn second(message: &Message) -> u32 {
    match *message {
        Message::AckE { a, .. } => a,
        Message::AckLd { count, .. }
        | Message::CommitLd { count, .. }
        | Message::Commit { count, .. } => count,
        Message::Propose { place, .. } | Message::Ack { place, .. } => place,
        Message::Cepoch { .. } | Message::NewEpoch { .. } | Message::NewLeader { .. } => 0,
    }
}

/// A message in words of its own.
pub fn message_words(message: &Message, room: usize) -> Vec<u64> {
    let mut words = vec![0; slot_words(room)];
    write_message(&mut words, message);
    words
}

fn read_event(sizes: Sizes, event: u64, who: u64, value: u64, msg: &[u64]) -> Event {
    match event {
        EVENT_ORACLE => Event::Oracle(who),
        EVENT_RESTART => Event::Restart,
        EVENT_DELIVERY => Event::Deliver {
            from: who,
            message: read_message(msg, sizes.room()).ok(),
        },
        EVENT_SUBMISSION => Event::Submit(value),
        _ => Event::Unknown,
    }
}

/// Message k into slot k; no other slot changes.
pub fn write_outbox(out: &mut [u64], sent: &[(usize, Message)], room: usize) {
    let slots = out.chunks_exact_mut(outbox_slot_words(room));
    for (slot, (receiver, message)) in slots.zip(sent) {
        slot[0] = *receiver as u64;
        write_message(&mut slot[1..], message);
    }
}

fn write_taken(hist: &mut [u64], cand: &mut [u64], out: &mut [u64], taken: &Taken, room: usize) {
    write_history(hist, &taken.next.history);
    write_history(cand, &taken.next.candidate);
    write_outbox(out, &taken.sent, room);
}

/// The step on lent words: the code (0 if taken, else the refusal's number),
/// how many messages were sent, whether the channels are emptied, and the
/// record after. A refusal changes nothing.
#[allow(clippy::too_many_arguments)]
pub fn step_words(
    n: u64,
    room: u64,
    record: Record,
    hist: &mut [u64],
    cand: &mut [u64],
    event: u64,
    who: u64,
    value: u64,
    msg: &[u64],
    out: &mut [u64],
) -> (u32, u32, bool, Record) {
    let loan = Loan {
        n,
        room,
        record: &record,
        hist,
        cand,
        event,
        msg,
        out: out.len(),
    };
    let Ok((sizes, server)) = unpack(&loan) else {
        return (Refusal::State.number(), 0, false, record);
    };
    let event = read_event(sizes, event, who, value, msg);
    match step(sizes, &server, &event) {
        Err(refusal) => (refusal.number(), 0, false, record),
        Ok(taken) => {
            write_taken(hist, cand, out, &taken, sizes.room());
            let sent = taken.sent.len() as u32;
            (TAKEN, sent, taken.empties, Record::of(&taken.next))
        }
    }
}
