//! Transactions, identifiers, histories and the nine messages.

/// The last epoch, counter, place or count: 4,294,967,295.
pub const LAST: u32 = u32::MAX;

/// A transaction is two 64-bit words, the identifier and then the value.
#[derive(Clone, Copy, Debug, PartialEq, Eq, Hash, PartialOrd, Ord)]
pub struct Tx {
    pub id: u64,
    pub value: u64,
}

/// An identifier is epoch × 2^32 + counter.
pub fn identifier(epoch: u32, counter: u32) -> u64 {
    (u64::from(epoch) << 32) | u64::from(counter)
}

pub fn epoch_of(id: u64) -> u32 {
    (id >> 32) as u32
}

pub fn counter_of(id: u64) -> u32 {
    (id & u64::from(LAST)) as u32
}

/// The last identifier of a history, 0 if it is empty.
pub fn last_id(history: &[Tx]) -> u64 {
    history.last().map_or(0, |tx| tx.id)
}

/// The counter that follows `history` in `epoch`: 1, or one more than the last
/// if that has this epoch. 64 bits wide, as it may pass the last counter.
pub fn next_counter(history: &[Tx], epoch: u32) -> u64 {
    match history.last() {
        Some(tx) if epoch_of(tx.id) == epoch => u64::from(counter_of(tx.id)) + 1,
        _ => 1,
    }
}

/// Identifiers strictly rising.
pub fn rising(history: &[Tx]) -> bool {
    history.windows(2).all(|pair| pair[0].id < pair[1].id)
}

/// Epochs 1 to `top`.
pub fn epochs_within(history: &[Tx], top: u32) -> bool {
    history
        .iter()
        .all(|tx| (1..=top).contains(&epoch_of(tx.id)))
}

/// Counters at least 1.
pub fn counters_given(history: &[Tx]) -> bool {
    history.iter().all(|tx| counter_of(tx.id) >= 1)
}

#[derive(Clone, Copy, Debug, PartialEq, Eq, Hash)]
pub enum Kind {
    Cepoch = 1,
    NewEpoch,
    AckE,
    NewLeader,
    AckLd,
    CommitLd,
    Propose,
    Ack,
    Commit,
}

pub const KINDS: [Kind; 9] = [
    Kind::Cepoch,
    Kind::NewEpoch,
    Kind::AckE,
    Kind::NewLeader,
    Kind::AckLd,
    Kind::CommitLd,
    Kind::Propose,
    Kind::Ack,
    Kind::Commit,
];

impl Kind {
    pub fn of(number: u64) -> Option<Kind> {
        KINDS.into_iter().find(|kind| kind.number() == number)
    }

    pub fn number(self) -> u64 {
        self as u64
    }

    /// The kind's row in a table of nine.
    pub fn row(self) -> usize {
        self as usize - 1
    }
}

#[derive(Clone, Debug, PartialEq, Eq)]
pub enum Message {
    Cepoch { p: u32 },
    NewEpoch { e: u32 },
    AckE { e: u32, a: u32, history: Vec<Tx> },
    NewLeader { e: u32, history: Vec<Tx> },
    AckLd { e: u32, count: u32 },
    CommitLd { e: u32, count: u32 },
    Propose { e: u32, place: u32, tx: Tx },
    Ack { e: u32, place: u32 },
    Commit { e: u32, count: u32 },
}

impl Message {
    pub fn kind(&self) -> Kind {
        match self {
            Message::Cepoch { .. } => Kind::Cepoch,
            Message::NewEpoch { .. } => Kind::NewEpoch,
            Message::AckE { .. } => Kind::AckE,
            Message::NewLeader { .. } => Kind::NewLeader,
            Message::AckLd { .. } => Kind::AckLd,
            Message::CommitLd { .. } => Kind::CommitLd,
            Message::Propose { .. } => Kind::Propose,
            Message::Ack { .. } => Kind::Ack,
            Message::Commit { .. } => Kind::Commit,
        }
    }

    /// The epoch the message carries; for CEPOCH, the sender's promise.
    pub fn epoch(&self) -> u32 {
        match *self {
            Message::Cepoch { p } => p,
            Message::NewEpoch { e }
            | Message::AckE { e, .. }
            | Message::NewLeader { e, .. }
            | Message::AckLd { e, .. }
            | Message::CommitLd { e, .. }
            | Message::Propose { e, .. }
            | Message::Ack { e, .. }
            | Message::Commit { e, .. } => e,
        }
    }
}

/// Why a message is malformed, in the paper's order. The first three are seen
/// only in words: a message that has been read cannot have them.
#[derive(Clone, Copy, Debug, PartialEq, Eq, Hash)]
pub enum Fault {
    UnknownKind,
    OverWidth,
    PastFields,
    EpochZero,
    PlaceZero,
    CountZero,
    HistoryOverRoom,
    HistoryNotRising,
    HistoryEpochAbove,
    HistoryEpochZero,
    HistoryCounterZero,
    AcceptedNotBelow,
    ProposeEpoch,
    ProposeCounterZero,
}

pub const FAULTS: [Fault; 14] = [
    Fault::UnknownKind,
    Fault::OverWidth,
    Fault::PastFields,
    Fault::EpochZero,
    Fault::PlaceZero,
    Fault::CountZero,
    Fault::HistoryOverRoom,
    Fault::HistoryNotRising,
    Fault::HistoryEpochAbove,
    Fault::HistoryEpochZero,
    Fault::HistoryCounterZero,
    Fault::AcceptedNotBelow,
    Fault::ProposeEpoch,
    Fault::ProposeCounterZero,
];

/// The first fault of a message at history room `room`, if it is malformed.
pub fn fault(message: &Message, room: usize) -> Option<Fault> {
    if message.kind() != Kind::Cepoch && message.epoch() == 0 {
        return Some(Fault::EpochZero);
    }
    match message {
        Message::AckE { e, a, history } => {
            history_fault(history, *a, room).or((a >= e).then_some(Fault::AcceptedNotBelow))
        }
        Message::NewLeader { e, history } => history_fault(history, *e, room),
        Message::Propose { e, place, tx } => propose_fault(*e, *place, *tx),
        Message::Ack { place, .. } => (*place == 0).then_some(Fault::PlaceZero),
        Message::Commit { count, .. } => (*count == 0).then_some(Fault::CountZero),
        _ => None,
    }
}

/// A history over H, not rising, with an epoch above `top`, or with a zero
/// epoch or counter.
fn history_fault(history: &[Tx], top: u32, room: usize) -> Option<Fault> {
    if history.len() > room {
        Some(Fault::HistoryOverRoom)
    } else if !rising(history) {
        Some(Fault::HistoryNotRising)
    } else if history.iter().any(|tx| epoch_of(tx.id) > top) {
        Some(Fault::HistoryEpochAbove)
    } else if history.iter().any(|tx| epoch_of(tx.id) == 0) {
        Some(Fault::HistoryEpochZero)
    } else if !counters_given(history) {
        Some(Fault::HistoryCounterZero)
    } else {
        None
    }
}

/// A place of zero, an identifier's epoch that is not e, a counter of zero.
fn propose_fault(e: u32, place: u32, tx: Tx) -> Option<Fault> {
    if place == 0 {
        Some(Fault::PlaceZero)
    } else if epoch_of(tx.id) != e {
        Some(Fault::ProposeEpoch)
    } else if counter_of(tx.id) == 0 {
        Some(Fault::ProposeCounterZero)
    } else {
        None
    }
}
