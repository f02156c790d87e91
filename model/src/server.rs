//! One server's record and its step.

use crate::formed::well_formed;
use crate::message::{
    counter_of, fault, identifier, last_id, next_counter, Kind, Message, Tx, LAST,
};

/// Sets and counts have a seat for each of seven servers.
pub const SEATS: usize = 7;

pub const LOOK: u8 = 0;
pub const F1: u8 = 1;
pub const F2: u8 = 2;
pub const F3: u8 = 3;
pub const F4: u8 = 4;
pub const L1: u8 = 5;
pub const L2: u8 = 6;
pub const L3: u8 = 7;
pub const L4: u8 = 8;
pub const STAGES: usize = 9;

pub fn is_follower(stage: u8) -> bool {
    (F1..=F4).contains(&stage)
}

pub fn is_leader(stage: u8) -> bool {
    (L1..=L4).contains(&stage)
}

pub type Set = [bool; SEATS];

/// Servers n, 3 to 7, and history room H, 1 to 64. No other sizes can be made.
#[derive(Clone, Copy, Debug, PartialEq, Eq)]
pub struct Sizes {
    n: usize,
    room: usize,
}

impl Sizes {
    pub fn of(n: u64, room: u64) -> Option<Sizes> {
        let good = (3..=7).contains(&n) && (1..=64).contains(&room);
        good.then_some(Sizes {
            n: n as usize,
            room: room as usize,
        })
    }

    pub fn n(self) -> usize {
        self.n
    }

    pub fn room(self) -> usize {
        self.room
    }

    /// A quorum is a set with 2 × size > n.
    pub fn quorum(self, set: &Set) -> bool {
        2 * set.iter().filter(|member| **member).count() > self.n
    }
}

/// The refusals, tested in this order.
#[derive(Clone, Copy, Debug, PartialEq, Eq, Hash)]
pub enum Refusal {
    State = 1,
    Event,
    Message,
    Role,
    Sender,
    Phase,
    Epoch,
    Gap,
    Undo,
    Full,
    Spent,
    Room,
    Trace,
}

impl Refusal {
    pub fn number(self) -> u32 {
        self as u32
    }
}

/// A server's record. Durable: p, a, history, d. The rest is volatile, but for
/// the server's own number.
#[derive(Clone, Debug, Default, PartialEq, Eq)]
pub struct Server {
    pub me: u8,
    pub stage: u8,
    /// 0 for none, x + 1 for server x.
    pub oracle: u8,
    pub p: u32,
    pub a: u32,
    pub d: u32,
    pub history: Vec<Tx>,
    pub largest: u32,
    pub cand_a: u32,
    pub candidate: Vec<Tx>,
    pub joined: Set,
    pub acked: Set,
    pub synced: Set,
    pub counts: [u32; SEATS],
}

impl Server {
    /// A fresh server is LOOK with all else zero.
    pub fn fresh(me: u8) -> Server {
        Server {
            me,
            ..Server::default()
        }
    }

    pub fn length(&self) -> u32 {
        self.history.len() as u32
    }

    /// The delivered sequence is the first d transactions.
    pub fn delivered(&self) -> &[Tx] {
        &self.history[..self.d as usize]
    }

    /// The same durable state in `stage` with all that is volatile cleared.
    fn cleared(&self, stage: u8, oracle: u8) -> Server {
        Server {
            me: self.me,
            stage,
            oracle,
            p: self.p,
            a: self.a,
            d: self.d,
            history: self.history.clone(),
            ..Server::default()
        }
    }

    /// The set that holds only this server.
    fn alone(&self) -> Set {
        let mut set = [false; SEATS];
        set[usize::from(self.me)] = true;
        set
    }

    /// The members of `set` but this server, in rising number.
    fn others(&self, set: &Set) -> Vec<usize> {
        (0..SEATS)
            .filter(|s| set[*s] && *s != usize::from(self.me))
            .collect()
    }

    /// `history` begins with the d delivered transactions.
    fn kept_by(&self, history: &[Tx]) -> bool {
        history.starts_with(self.delivered())
    }
}

#[derive(Clone, Debug, PartialEq, Eq)]
pub enum Event {
    /// A number that names no event.
    Unknown,
    Oracle(u64),
    Restart,
    /// A message, or none where the words are those of no message.
    Deliver {
        from: u64,
        message: Option<Message>,
    },
    Submit(u64),
}

/// A step that was taken.
#[derive(Clone, Debug, PartialEq, Eq)]
pub struct Taken {
    pub next: Server,
    /// Receivers and messages, in the order of sending.
    pub sent: Vec<(usize, Message)>,
    /// All channels to and from this server are emptied.
    pub empties: bool,
}

impl Taken {
    fn quiet(next: Server) -> Taken {
        Taken::sending(next, Vec::new())
    }

    fn sending(next: Server, sent: Vec<(usize, Message)>) -> Taken {
        Taken {
            next,
            sent,
            empties: false,
        }
    }

    /// A follower's replies go to its oracle.
    fn reply(next: Server, message: Message) -> Taken {
        let oracle = usize::from(next.oracle) - 1;
        Taken::sending(next, vec![(oracle, message)])
    }
}

pub type Answer = Result<Taken, Refusal>;

/// What the table says of a kind in a stage.
#[derive(Clone, Copy, Debug, PartialEq, Eq)]
pub enum Cell {
    Taken,
    Role,
    Phase,
}

const T: Cell = Cell::Taken;
const R: Cell = Cell::Role;
const P: Cell = Cell::Phase;

/// Nine kinds against nine stages, LOOK, F1 to F4, L1 to L4.
pub const TABLE: [[Cell; STAGES]; 9] = [
    [R, R, R, R, R, T, T, T, T], // CEPOCH
    [R, T, P, P, P, R, R, R, R], // NEWEPOCH
    [R, R, R, R, R, P, T, T, T], // ACK-E
    [R, P, T, P, P, R, R, R, R], // NEWLEADER
    [R, R, R, R, R, P, P, T, T], // ACK-LD
    [R, P, P, T, P, R, R, R, R], // COMMIT-LD
    [R, P, P, T, T, R, R, R, R], // PROPOSE
    [R, R, R, R, R, P, P, P, T], // ACK
    [R, P, P, P, T, R, R, R, R], // COMMIT
];

fn ensure(holds: bool, refusal: Refusal) -> Result<(), Refusal> {
    if holds {
        Ok(())
    } else {
        Err(refusal)
    }
}

/// One step: a refusal, or the next record with what is sent.
pub fn step(sizes: Sizes, server: &Server, event: &Event) -> Answer {
    ensure(well_formed(sizes, server), Refusal::State)?;
    sound_step(sizes, server, event)
}

/// The same of a record that is known to be well formed.
pub fn sound_step(sizes: Sizes, server: &Server, event: &Event) -> Answer {
    ensure(known(sizes, server, event), Refusal::Event)?;
    match event {
        Event::Unknown => Err(Refusal::Event),
        Event::Oracle(x) => Ok(oracle(server, *x as u8)),
        Event::Restart => Ok(restart(server)),
        Event::Deliver { from, message } => {
            deliver(sizes, server, *from as usize, message.as_ref())
        }
        Event::Submit(value) => submit(sizes, server, *value),
    }
}

/// EVENT: unknown event or server, sender equal to receiver.
fn known(sizes: Sizes, server: &Server, event: &Event) -> bool {
    let below = |s: u64| s < sizes.n as u64;
    match event {
        Event::Unknown => false,
        Event::Oracle(x) => below(*x),
        Event::Deliver { from, .. } => below(*from) && *from != u64::from(server.me),
        Event::Restart | Event::Submit(_) => true,
    }
}

/// Oracle x: x another, F1 and CEPOCH(p) to x; x itself, L1.
fn oracle(server: &Server, x: u8) -> Taken {
    let taken = if x == server.me {
        let mut next = server.cleared(L1, x + 1);
        next.joined = server.alone();
        next.largest = server.p;
        Taken::quiet(next)
    } else {
        Taken::reply(server.cleared(F1, x + 1), Message::Cepoch { p: server.p })
    };
    Taken {
        empties: true,
        ..taken
    }
}

/// Restart: LOOK, durable kept, the same channels emptied.
fn restart(server: &Server) -> Taken {
    Taken {
        empties: true,
        ..Taken::quiet(server.cleared(LOOK, 0))
    }
}

fn deliver(sizes: Sizes, server: &Server, from: usize, message: Option<&Message>) -> Answer {
    let message = message
        .filter(|m| fault(m, sizes.room).is_none())
        .ok_or(Refusal::Message)?;
    admitted(server, from, message.kind())?;
    match message {
        Message::Cepoch { p } => cepoch(sizes, server, from, *p),
        Message::NewEpoch { e } => newepoch(server, *e),
        Message::AckE { e, a, history } => ack_e(sizes, server, from, *e, *a, history),
        Message::NewLeader { e, history } => newleader(server, *e, history),
        Message::AckLd { e, count } => ack_ld(sizes, server, from, *e, *count),
        Message::CommitLd { e, count } => commit(server, *e, *count, F4),
        Message::Propose { e, place, tx } => propose(sizes, server, *e, *place, *tx),
        Message::Ack { e, place } => ack(sizes, server, from, *e, *place),
        Message::Commit { e, count } => commit(server, *e, *count, server.stage),
    }
}

/// ROLE, SENDER and PHASE, in this order.
fn admitted(server: &Server, from: usize, kind: Kind) -> Result<(), Refusal> {
    let cell = TABLE[kind.row()][usize::from(server.stage)];
    ensure(cell != Cell::Role, Refusal::Role)?;
    ensure(right_sender(server, from, kind), Refusal::Sender)?;
    let counted = kind == Kind::AckE && server.stage == L2 && server.acked[from];
    ensure(cell == Cell::Taken && !counted, Refusal::Phase)
}

/// Follower: its oracle; leader: ACK-E, ACK-LD and ACK from one joined.
fn right_sender(server: &Server, from: usize, kind: Kind) -> bool {
    if is_follower(server.stage) {
        from + 1 == usize::from(server.oracle)
    } else {
        kind == Kind::Cepoch || server.joined[from]
    }
}

fn cepoch(sizes: Sizes, server: &Server, from: usize, e: u32) -> Answer {
    if server.stage == L1 {
        cepoch_collected(sizes, server, from, e)
    } else {
        cepoch_late(server, from, e)
    }
}

/// CEPOCH in L1: join f, largest = max, and at a quorum a new epoch.
fn cepoch_collected(sizes: Sizes, server: &Server, from: usize, e: u32) -> Answer {
    let mut next = server.clone();
    next.joined[from] = true;
    next.largest = server.largest.max(e);
    if !sizes.quorum(&next.joined) {
        return Ok(Taken::quiet(next));
    }
    ensure(next.largest != LAST, Refusal::Spent)?;
    next.p = next.largest + 1;
    next.largest = 0;
    next.stage = L2;
    next.acked = server.alone();
    next.cand_a = server.a;
    next.candidate = server.history.clone();
    let message = Message::NewEpoch { e: next.p };
    let sent = to_each(&next.others(&next.joined), &message);
    Ok(Taken::sending(next, sent))
}

/// CEPOCH in L2 to L4: f joins and is told where the leader stands.
fn cepoch_late(server: &Server, from: usize, e: u32) -> Answer {
    ensure(e <= server.p, Refusal::Epoch)?;
    let mut next = server.clone();
    next.joined[from] = true;
    let mut sent = vec![(from, Message::NewEpoch { e: server.p })];
    if server.stage != L2 {
        next.synced[from] = false;
        sent.push((from, whole_history(&next)));
    }
    Ok(Taken::sending(next, sent))
}

fn whole_history(server: &Server) -> Message {
    Message::NewLeader {
        e: server.p,
        history: server.history.clone(),
    }
}

fn to_each(receivers: &[usize], message: &Message) -> Vec<(usize, Message)> {
    receivers.iter().map(|s| (*s, message.clone())).collect()
}

fn ack_e(sizes: Sizes, server: &Server, from: usize, e: u32, a: u32, history: &[Tx]) -> Answer {
    ensure(e == server.p, Refusal::Epoch)?;
    if server.stage == L2 {
        ack_e_counted(sizes, server, from, a, history)
    } else {
        Ok(Taken::quiet(server.clone()))
    }
}

/// ACK-E in L2: count f; the candidate is replaced only by a strictly greater
/// pair (a, last identifier); at a quorum it becomes the history.
fn ack_e_counted(sizes: Sizes, server: &Server, from: usize, a: u32, history: &[Tx]) -> Answer {
    let mut next = server.clone();
    next.acked[from] = true;
    if (a, last_id(history)) > (server.cand_a, last_id(&server.candidate)) {
        next.cand_a = a;
        next.candidate = history.to_vec();
    }
    if !sizes.quorum(&next.acked) {
        return Ok(Taken::quiet(next));
    }
    ensure(server.kept_by(&next.candidate), Refusal::Undo)?;
    next.history = std::mem::take(&mut next.candidate);
    next.cand_a = 0;
    next.acked = [false; SEATS];
    next.a = server.p;
    next.stage = L3;
    next.synced = server.alone();
    let sent = to_each(&next.others(&next.joined), &whole_history(&next));
    Ok(Taken::sending(next, sent))
}

fn ack_ld(sizes: Sizes, server: &Server, from: usize, e: u32, count: u32) -> Answer {
    ensure(e == server.p, Refusal::Epoch)?;
    let fits = match server.stage {
        L3 => count == server.length(),
        _ => count <= server.length(),
    };
    ensure(fits, Refusal::Gap)?;
    let mut next = server.clone();
    next.synced[from] = true;
    next.counts[from] = next.counts[from].max(count);
    Ok(if server.stage == L3 {
        establish(sizes, next)
    } else {
        welcome(sizes, next, from)
    })
}

/// ACK-LD in L3, f counted: at a quorum L4, d = length, COMMIT-LD(p, d) to all
/// others synced.
fn establish(sizes: Sizes, mut next: Server) -> Taken {
    if !sizes.quorum(&next.synced) {
        return Taken::quiet(next);
    }
    next.stage = L4;
    next.d = next.length();
    let message = Message::CommitLd {
        e: next.p,
        count: next.d,
    };
    let sent = to_each(&next.others(&next.synced), &message);
    Taken::sending(next, sent)
}

/// ACK-LD in L4, f counted: advance; if d rose, COMMIT(p, d) to all others
/// synced but f; then COMMIT-LD(p, d) to f.
fn welcome(sizes: Sizes, mut next: Server, from: usize) -> Taken {
    let mut sent = advance(sizes, &mut next);
    sent.retain(|(receiver, _)| *receiver != from);
    let message = Message::CommitLd {
        e: next.p,
        count: next.d,
    };
    sent.push((from, message));
    Taken::sending(next, sent)
}

fn ack(sizes: Sizes, server: &Server, from: usize, e: u32, place: u32) -> Answer {
    ensure(e == server.p, Refusal::Epoch)?;
    ensure(place <= server.length(), Refusal::Gap)?;
    let mut next = server.clone();
    next.counts[from] = next.counts[from].max(place);
    let sent = advance(sizes, &mut next);
    Ok(Taken::sending(next, sent))
}

/// Advance: d becomes the greatest c from d to length held by a quorum; if
/// none, d stays. If d rose, COMMIT(p, d) to all others synced.
fn advance(sizes: Sizes, server: &mut Server) -> Vec<(usize, Message)> {
    let before = server.d;
    server.d = (before..=server.length())
        .rev()
        .find(|c| sizes.quorum(&holders(sizes, server, *c)))
        .unwrap_or(before);
    if server.d == before {
        return Vec::new();
    }
    let message = Message::Commit {
        e: server.p,
        count: server.d,
    };
    to_each(&server.others(&server.synced), &message)
}

/// The leader and every other server below n whose count is at least c.
fn holders(sizes: Sizes, server: &Server, c: u32) -> Set {
    let mut set = server.alone();
    for (s, member) in set.iter_mut().enumerate().take(sizes.n) {
        *member |= server.counts[s] >= c;
    }
    set
}

/// NEWEPOCH: e = p sends nothing; e > p is promised and acknowledged.
fn newepoch(server: &Server, e: u32) -> Answer {
    ensure(e >= server.p, Refusal::Epoch)?;
    let mut next = server.clone();
    next.stage = F2;
    if e == server.p {
        return Ok(Taken::quiet(next));
    }
    next.p = e;
    let message = Message::AckE {
        e,
        a: server.a,
        history: server.history.clone(),
    };
    Ok(Taken::reply(next, message))
}

/// NEWLEADER: history and a = e together, F3, ACK-LD(e, length).
fn newleader(server: &Server, e: u32, history: &[Tx]) -> Answer {
    ensure(e == server.p, Refusal::Epoch)?;
    ensure(server.kept_by(history), Refusal::Undo)?;
    let mut next = server.clone();
    next.history = history.to_vec();
    next.a = e;
    next.stage = F3;
    let count = next.length();
    Ok(Taken::reply(next, Message::AckLd { e, count }))
}

/// PROPOSE: GAP unless place = length + 1 and the counter is the next; then
/// FULL at length H; append, ACK(e, place).
fn propose(sizes: Sizes, server: &Server, e: u32, place: u32, tx: Tx) -> Answer {
    ensure(e == server.p, Refusal::Epoch)?;
    let counter = u64::from(counter_of(tx.id));
    let follows = place == server.length() + 1 && counter == next_counter(&server.history, e);
    ensure(follows, Refusal::Gap)?;
    ensure(server.history.len() < sizes.room, Refusal::Full)?;
    let mut next = server.clone();
    next.history.push(tx);
    Ok(Taken::reply(next, Message::Ack { e, place }))
}

/// COMMIT-LD and COMMIT: d = max(d, count), then `stage`.
fn commit(server: &Server, e: u32, count: u32, stage: u8) -> Answer {
    ensure(e == server.p, Refusal::Epoch)?;
    ensure(count <= server.length(), Refusal::Gap)?;
    let mut next = server.clone();
    next.d = server.d.max(count);
    next.stage = stage;
    Ok(Taken::quiet(next))
}

/// Submit v: append the next identifier of p with v, PROPOSE to all others
/// joined.
fn submit(sizes: Sizes, server: &Server, value: u64) -> Answer {
    ensure(server.stage == L4, Refusal::Role)?;
    let counter = next_counter(&server.history, server.p);
    let fits = server.history.len() < sizes.room && counter <= u64::from(LAST);
    ensure(fits, Refusal::Full)?;
    let tx = Tx {
        id: identifier(server.p, counter as u32),
        value,
    };
    let mut next = server.clone();
    next.history.push(tx);
    let message = Message::Propose {
        e: next.p,
        place: next.length(),
        tx,
    };
    let sent = to_each(&next.others(&next.joined), &message);
    Ok(Taken::sending(next, sent))
}
