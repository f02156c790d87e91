//! Seeded inputs: reachable states, well-formed states that are not reachable,
//! damaged records, words and messages, wrong lengths and sizes, random words;
//! and random scripts.

use std::collections::VecDeque;

use crate::bytes::{record_words, RECORD_WORDS};
use crate::cluster::{self, Cluster};
use crate::input::{ByteInput, StepInput};
use crate::message::{
    counter_of, epoch_of, identifier, next_counter, Kind, Message, Tx, KINDS, LAST,
};
use crate::rng::Rng;
use crate::script::{DEPTH, ROOM};
use crate::server::{
    is_follower, Cell, Event, Server, Set, Sizes, F2, F3, F4, L1, L2, L3, L4, LOOK, SEATS, STAGES,
    TABLE,
};
use crate::words::{
    history_words, message_words, outbox_slot_words, slot_words, write_history, Record,
    EVENT_DELIVERY, EVENT_ORACLE, EVENT_RESTART, EVENT_SUBMISSION, OUTBOX,
};

/// A server and the event it is handed.
pub struct Scene {
    pub sizes: Sizes,
    pub server: Server,
    pub event: Event,
}

// ---------------------------------------------------------------- numbers

/// Small rooms mostly, so that lengths are often at the room.
pub fn sizes(rng: &mut Rng) -> Sizes {
    let n = rng.within(3, 7);
    let room = match rng.below(16) {
        0 => 64,
        1 => rng.within(1, 64),
        2 => 16,
        _ => rng.within(1, 5),
    };
    Sizes::of(n, room).expect("sizes in bounds")
}

/// Small epochs, the last ones, and any.
fn epoch(rng: &mut Rng) -> u32 {
    match rng.below(8) {
        0 => LAST - rng.below(3) as u32,
        1 => rng.word() as u32,
        _ => rng.below(6) as u32,
    }
}

/// A number at most `top`, often at the ends.
fn at_most(rng: &mut Rng, top: u32) -> u32 {
    match rng.below(4) {
        0 => top,
        1 => top.saturating_sub(1),
        2 => 0,
        _ => rng.within(0, u64::from(top)) as u32,
    }
}

/// A number near `middle`, or any.
fn near(rng: &mut Rng, middle: u32) -> u32 {
    match rng.below(8) {
        0 => middle.saturating_add(1),
        1 => middle.saturating_sub(1),
        2 => rng.pick(&[0, 1, LAST]),
        3 => epoch(rng),
        _ => middle,
    }
}

/// A word that is likely to be on some bound.
fn odd_word(rng: &mut Rng, held: u64) -> u64 {
    match rng.below(6) {
        0 => held.wrapping_add(1),
        1 => held.wrapping_sub(1),
        2 => held ^ (1 << rng.below(64)),
        3 => rng.word(),
        4 => rng.below(10),
        _ => rng.pick(&[0, 1, 7, 8, 9, 255, 256, 1 << 32, (1 << 32) - 1, u64::MAX]),
    }
}

fn value(rng: &mut Rng) -> u64 {
    match rng.below(4) {
        0 => rng.word(),
        _ => rng.below(4),
    }
}

// -------------------------------------------------------------- histories

/// An identifier above `last` with an epoch of at most `top`, if there is one.
fn next_id(rng: &mut Rng, last: u64, top: u32) -> Option<u64> {
    let (e, c) = (epoch_of(last), counter_of(last));
    let stays = e > 0 && e <= top && c < LAST;
    if stays && (e == top || !rng.one_in(3)) {
        let counter = match rng.below(8) {
            0 => LAST,
            1 => rng.within(u64::from(c) + 1, u64::from(LAST)) as u32,
            _ => c + 1,
        };
        Some(identifier(e, counter))
    } else if e < top {
        let epoch = match rng.below(2) {
            0 => e + 1,
            _ => rng.within(u64::from(e) + 1, u64::from(top)) as u32,
        };
        Some(identifier(epoch, 1 + at_most_few(rng)))
    } else {
        None
    }
}

fn at_most_few(rng: &mut Rng) -> u32 {
    match rng.below(4) {
        0 => rng.below(3) as u32,
        _ => 0,
    }
}

/// `history` made longer, up to `length`, its epochs at most `top`.
fn extend(rng: &mut Rng, history: &mut Vec<Tx>, top: u32, length: usize) {
    while history.len() < length {
        let last = history.last().map_or(0, |tx| tx.id);
        let Some(id) = next_id(rng, last, top) else {
            return;
        };
        let value = value(rng);
        history.push(Tx { id, value });
    }
}

fn length(rng: &mut Rng, room: usize) -> usize {
    match rng.below(4) {
        0 => room,
        1 => room - 1,
        _ => rng.index(room + 1),
    }
}

fn history(rng: &mut Rng, top: u32, room: usize) -> Vec<Tx> {
    let mut history = Vec::new();
    let length = length(rng, room);
    extend(rng, &mut history, top, length);
    history
}

/// A history that begins like the server's own: mostly with what it has
/// delivered, mostly going on in some other way.
fn branch(rng: &mut Rng, server: &Server, top: u32, room: usize) -> Vec<Tx> {
    let own = &server.history;
    let kept = match rng.below(8) {
        0 => rng.index(own.len() + 1),
        1 => own.len(),
        2 => (server.d as usize).saturating_sub(1),
        _ => server.d as usize,
    };
    let mut history = own[..kept].to_vec();
    history.retain(|tx| epoch_of(tx.id) <= top);
    if !rng.one_in(3) {
        let length = length(rng, room).max(history.len());
        extend(rng, &mut history, top, length);
    }
    if rng.one_in(8) && !history.is_empty() {
        let at = rng.index(history.len());
        history[at].value ^= 1;
    }
    history
}

// ---------------------------------------------------- well-formed servers

/// A subset of `inside`: all of it, or each member as likely in as out, or
/// most of them in.
fn subset(rng: &mut Rng, inside: &Set) -> Set {
    let mut set = *inside;
    let left_out = rng.pick(&[0, 2, 2, 4]);
    for member in &mut set {
        *member &= left_out == 0 || !rng.one_in(left_out);
    }
    set
}

/// A set with this server in it that lacks one member to be a quorum.
fn one_short(rng: &mut Rng, sizes: Sizes, me: u8) -> Set {
    let mut seats: Vec<usize> = (0..sizes.n()).filter(|s| *s != usize::from(me)).collect();
    rng.shuffle(&mut seats);
    let mut set = [false; SEATS];
    set[usize::from(me)] = true;
    for seat in seats.into_iter().take(sizes.n() / 2 - 1) {
        set[seat] = true;
    }
    set
}

/// A subset of joined: often one that a single message makes a quorum, often
/// all but one, sometimes without the server itself.
fn counted(rng: &mut Rng, sizes: Sizes, server: &Server) -> Set {
    let me = usize::from(server.me);
    let mut set = match rng.below(3) {
        0 => one_short(rng, sizes, server.me),
        1 => server.joined,
        _ => subset(rng, &server.joined),
    };
    for (member, joined) in set.iter_mut().zip(server.joined) {
        *member &= joined;
    }
    let others: Vec<usize> = (0..SEATS)
        .filter(|s| server.joined[*s] && *s != me)
        .collect();
    if !others.is_empty() && rng.one_in(2) {
        set[rng.pick(&others)] = false;
    }
    set[me] = !rng.one_in(4);
    set
}

fn everyone(sizes: Sizes) -> Set {
    let mut set = [false; SEATS];
    set[..sizes.n()].fill(true);
    set
}

/// Any well-formed server in `stage`, reachable or not.
pub fn formed(rng: &mut Rng, sizes: Sizes, stage: u8) -> Server {
    let me = rng.index(sizes.n()) as u8;
    let mut server = durable(rng, sizes, me, stage);
    server.stage = stage;
    server.oracle = oracle_for(rng, sizes, me, stage);
    if stage >= L1 {
        server.joined = subset(rng, &everyone(sizes));
        server.joined[usize::from(me)] = true;
    }
    match stage {
        L1 => server.largest = server.p + at_most(rng, LAST - server.p),
        L2 => with_candidate(rng, sizes, &mut server),
        L3 | L4 => with_counts(rng, sizes, &mut server),
        _ => {}
    }
    server
}

fn durable(rng: &mut Rng, sizes: Sizes, me: u8, stage: u8) -> Server {
    let mut server = Server::fresh(me);
    server.p = epoch(rng);
    if matches!(stage, F2..=F4 | L2..=L4) {
        server.p = server.p.max(1);
    }
    server.a = match stage {
        F3 | F4 | L3 | L4 => server.p,
        _ => at_most(rng, server.p),
    };
    server.history = history(rng, server.a, sizes.room());
    server.d = at_most(rng, server.length());
    server
}

fn oracle_for(rng: &mut Rng, sizes: Sizes, me: u8, stage: u8) -> u8 {
    let n = sizes.n() as u8;
    match stage {
        LOOK => 0,
        L1..=L4 => me + 1,
        _ => (me + 1 + rng.index(sizes.n() - 1) as u8) % n + 1,
    }
}

fn with_candidate(rng: &mut Rng, sizes: Sizes, server: &mut Server) {
    server.acked = counted(rng, sizes, server);
    server.cand_a = match rng.below(3) {
        0 => server.a.min(server.p - 1),
        _ => at_most(rng, server.p - 1),
    };
    server.candidate = branch(rng, server, server.cand_a, sizes.room());
}

fn with_counts(rng: &mut Rng, sizes: Sizes, server: &mut Server) {
    server.synced = counted(rng, sizes, server);
    let length = server.length();
    for count in &mut server.counts[..sizes.n()] {
        *count = at_most(rng, length);
    }
    if rng.one_in(2) {
        on_the_edge(rng, sizes, server);
    }
}

/// One more acknowledgement of the whole history makes d rise, if it can.
fn on_the_edge(rng: &mut Rng, sizes: Sizes, server: &mut Server) {
    let holders = one_short(rng, sizes, server.me);
    server.d = at_most(rng, server.length().saturating_sub(1));
    for (count, holds) in server.counts.iter_mut().zip(holders) {
        *count = match holds {
            true => server.history.len() as u32,
            false => (*count).min(server.d),
        };
    }
}

// ------------------------------------------------------------------ events

/// An event for a server, mostly one that comes near to being taken.
pub fn event_for(rng: &mut Rng, sizes: Sizes, server: &Server) -> Event {
    match rng.below(32) {
        0..=1 => Event::Oracle(rng.below(sizes.n() as u64 + 1)),
        2 => Event::Restart,
        3..=5 => Event::Submit(value(rng)),
        6 => Event::Unknown,
        _ => {
            let kind = kind_for(rng, server.stage);
            Event::Deliver {
                from: sender_for(rng, sizes, server),
                message: Some(message_for(rng, sizes, server, kind)),
            }
        }
    }
}

/// Any kind, but every second time one that the stage takes, if there is one.
fn kind_for(rng: &mut Rng, stage: u8) -> Kind {
    let takes = |kind: &Kind| TABLE[kind.row()][usize::from(stage)] == Cell::Taken;
    let taken: Vec<Kind> = KINDS.into_iter().filter(takes).collect();
    match taken.is_empty() || rng.one_in(2) {
        true => rng.pick(&KINDS),
        false => rng.pick(&taken),
    }
}

fn sender_for(rng: &mut Rng, sizes: Sizes, server: &Server) -> u64 {
    if is_follower(server.stage) && !rng.one_in(5) {
        return u64::from(server.oracle) - 1;
    }
    let joined: Vec<u64> = (0..SEATS as u64)
        .filter(|s| server.joined[*s as usize] && *s != u64::from(server.me))
        .collect();
    if !joined.is_empty() && !rng.one_in(3) {
        return rng.pick(&joined);
    }
    match rng.below(16) {
        0 => rng.word(),
        1 => sizes.n() as u64,
        _ => rng.below(sizes.n() as u64),
    }
}

/// A message of a kind with fields near what the server's rules ask for.
pub fn message_for(rng: &mut Rng, sizes: Sizes, server: &Server, kind: Kind) -> Message {
    let e = near(rng, server.p);
    let length = server.length();
    match kind {
        Kind::Cepoch => Message::Cepoch {
            p: cepoch_for(rng, server),
        },
        Kind::NewEpoch => Message::NewEpoch {
            e: e.saturating_add(rng.below(2) as u32),
        },
        Kind::AckE => ack_e_for(rng, sizes, server, e),
        Kind::NewLeader => Message::NewLeader {
            e,
            history: branch(rng, server, e, sizes.room()),
        },
        Kind::AckLd => Message::AckLd {
            e,
            count: near(rng, length),
        },
        Kind::CommitLd => Message::CommitLd {
            e,
            count: count_for(rng, server),
        },
        Kind::Propose => propose_for(rng, server, e),
        Kind::Ack => Message::Ack {
            e,
            place: near(rng, length),
        },
        Kind::Commit => Message::Commit {
            e,
            count: count_for(rng, server),
        },
    }
}

fn cepoch_for(rng: &mut Rng, server: &Server) -> u32 {
    match rng.below(4) {
        0 => near(rng, server.largest),
        1 => at_most(rng, server.p),
        _ => near(rng, server.p),
    }
}

fn count_for(rng: &mut Rng, server: &Server) -> u32 {
    match rng.below(2) {
        0 => near(rng, server.d),
        _ => near(rng, server.length()),
    }
}

fn ack_e_for(rng: &mut Rng, sizes: Sizes, server: &Server, e: u32) -> Message {
    let below = e.saturating_sub(1);
    let a = match rng.below(8) {
        0 => near(rng, e),
        1 | 2 => server.cand_a.min(below),
        3 => server.a.min(below),
        4 => below,
        _ => at_most(rng, below),
    };
    let history = match rng.below(4) {
        0 => twin(rng, &server.candidate),
        _ => branch(rng, server, a, sizes.room()),
    };
    Message::AckE { e, a, history }
}

/// The same identifiers, perhaps with another value.
fn twin(rng: &mut Rng, history: &[Tx]) -> Vec<Tx> {
    let mut twin = history.to_vec();
    if let Some(tx) = twin.last_mut() {
        tx.value ^= rng.below(2);
    }
    twin
}

fn propose_for(rng: &mut Rng, server: &Server, e: u32) -> Message {
    let next = u32::try_from(next_counter(&server.history, e)).unwrap_or(LAST);
    let counter = match rng.below(6) {
        0 => near(rng, next),
        _ => next,
    };
    let named = match rng.below(16) {
        0 => near(rng, e),
        _ => e,
    };
    Message::Propose {
        e,
        place: near(rng, server.length() + 1),
        tx: Tx {
            id: identifier(named, counter),
            value: value(rng),
        },
    }
}

// --------------------------------------------------------- reachable states

/// A cluster that walks on through random events.
pub struct Walk {
    cluster: Cluster,
    planned: VecDeque<cluster::Event>,
    leader: u64,
    left: u64,
}

impl Walk {
    pub fn new(rng: &mut Rng) -> Walk {
        let sizes = sizes(rng);
        let depth = rng.within(2, 16);
        let cluster = Cluster::new(sizes.n() as u64, sizes.room() as u64, depth);
        let mut walk = Walk::of(cluster.expect("sizes in bounds"), rng.within(20, 400));
        if rng.one_in(4) {
            walk.promise_ahead(rng);
        }
        walk
    }

    fn of(cluster: Cluster, left: u64) -> Walk {
        Walk {
            cluster,
            planned: VecDeque::new(),
            leader: 0,
            left,
        }
    }

    /// Promises at the last epochs.
    fn promise_ahead(&mut self, rng: &mut Rng) {
        for server in &mut self.cluster.servers {
            server.p = LAST - rng.below(4) as u32;
        }
    }

    /// The next event; the cluster has taken or refused it afterwards.
    pub fn next(&mut self, rng: &mut Rng) -> Scene {
        if self.left == 0 {
            *self = Walk::new(rng);
        }
        self.left -= 1;
        loop {
            let event = self.choose(rng);
            let addressed = self.cluster.addressed(event);
            if let Ok((s, step_event)) = addressed {
                let server = self.cluster.servers[s].clone();
                let _ = self.cluster.apply(event);
                return Scene {
                    sizes: self.cluster.sizes(),
                    server,
                    event: step_event,
                };
            }
        }
    }

    fn choose(&mut self, rng: &mut Rng) -> cluster::Event {
        let n = self.cluster.sizes().n() as u64;
        let s = rng.below(n);
        match rng.below(100) {
            0..=1 => self.plan(rng),
            2 => return cluster::Event::Restart { s },
            3 => {
                let x = rng.below(n);
                return cluster::Event::Oracle { s, x };
            }
            4..=15 => return self.submission(rng),
            _ => {}
        }
        if let Some(event) = self.planned.pop_front() {
            return event;
        }
        match self.cluster.waiting() {
            waiting if waiting.is_empty() => {
                self.plan(rng);
                self.submission(rng)
            }
            waiting => {
                let (from, to) = rng.pick(&waiting);
                cluster::Event::Deliver {
                    from: from as u64,
                    to: to as u64,
                }
            }
        }
    }

    fn submission(&self, rng: &mut Rng) -> cluster::Event {
        cluster::Event::Submit {
            s: self.leader,
            v: value(rng),
        }
    }

    /// A new leader, named to itself and then to most others.
    fn plan(&mut self, rng: &mut Rng) {
        let n = self.cluster.sizes().n() as u64;
        let x = rng.below(n);
        let mut others: Vec<u64> = (0..n).filter(|s| *s != x).collect();
        rng.shuffle(&mut others);
        if rng.one_in(4) {
            others.pop();
        }
        self.leader = x;
        self.planned = [x]
            .into_iter()
            .chain(others)
            .map(|s| cluster::Event::Oracle { s, x })
            .collect();
    }
}

// ------------------------------------------------------------------ inputs

/// A scene in words, the outbox full of what must not change.
fn dress(rng: &mut Rng, scene: &Scene) -> StepInput {
    let room = scene.sizes.room();
    let mut hist = vec![0; history_words(room)];
    let mut cand = vec![0; history_words(room)];
    write_history(&mut hist, &scene.server.history);
    write_history(&mut cand, &scene.server.candidate);
    let slots = OUTBOX + rng.pick(&[0, 0, 0, 1, 2]);
    let spare = rng.pick(&[0, 0, 0, 1]);
    let mut input = StepInput {
        n: scene.sizes.n() as u64,
        room: room as u64,
        record: record_words(&Record::of(&scene.server)),
        hist,
        cand,
        event: 0,
        who: rng.below(9),
        value: rng.word(),
        msg: vec![0; rng.index(slot_words(room) + 2)],
        out: words(rng, slots * outbox_slot_words(room) + spare),
    };
    dress_event(rng, &mut input, &scene.event);
    input
}

fn dress_event(rng: &mut Rng, input: &mut StepInput, event: &Event) {
    match event {
        Event::Unknown => input.event = rng.pick(&[0, 5, 6, 255, 256 + 3, u64::MAX]),
        Event::Oracle(x) => (input.event, input.who) = (EVENT_ORACLE, *x),
        Event::Restart => input.event = EVENT_RESTART,
        Event::Submit(value) => (input.event, input.value) = (EVENT_SUBMISSION, *value),
        Event::Deliver { from, message } => {
            (input.event, input.who) = (EVENT_DELIVERY, *from);
            input.msg = match message {
                Some(message) => message_words(message, input.room as usize),
                None => words(rng, slot_words(input.room as usize)),
            };
        }
    }
}

fn words(rng: &mut Rng, length: usize) -> Vec<u64> {
    (0..length).map(|_| rng.word()).collect()
}

/// One word of a list replaced.
fn damage(rng: &mut Rng, words: &mut [u64]) {
    if !words.is_empty() {
        let at = rng.index(words.len());
        words[at] = odd_word(rng, words[at]);
    }
}

/// One of the record's words replaced: each field as likely as each other, a
/// set or the counts being one field.
fn damage_record(rng: &mut Rng, record: &mut [u64; RECORD_WORDS]) {
    let at = match rng.index(14) {
        field if field < 10 => field,
        field => 10 + SEATS * (field - 10) + rng.index(SEATS),
    };
    record[at] = match at {
        10..=30 if !rng.one_in(8) => 1 - record[at].min(1),
        _ => odd_word(rng, record[at]),
    };
}

/// A list made longer or shorter.
fn resize(rng: &mut Rng, words: &mut Vec<u64>) {
    let length = match rng.below(4) {
        0 => words.len() + 1,
        1 => words.len().saturating_sub(1),
        2 => rng.index(words.len() + 1),
        _ => words.len() + rng.index(40),
    };
    words.resize(length, 0);
}

fn damage_lengths(rng: &mut Rng, input: &mut StepInput) {
    match rng.below(6) {
        0 => resize(rng, &mut input.hist),
        1 => resize(rng, &mut input.cand),
        2 => resize(rng, &mut input.msg),
        3 => resize(rng, &mut input.out),
        4 => input.n = odd_word(rng, input.n),
        _ => input.room = odd_word(rng, input.room),
    }
}

/// A record of some other room or other size than the words lent.
fn damage_sizes(rng: &mut Rng, input: &mut StepInput) {
    match rng.below(3) {
        0 => input.n = rng.pick(&[0, 1, 2, 8, 9, u64::MAX, input.n.max(4) - 1]),
        1 => input.room = rng.pick(&[0, 65, 1 << 32, u64::MAX, input.room + 1]),
        _ => {
            let short = OUTBOX * outbox_slot_words(input.room as usize) - 1;
            input.out.truncate(short - rng.index(3).min(short));
        }
    }
}

/// Every word a random one, some of them small.
fn scramble(rng: &mut Rng, input: &mut StepInput) {
    let few = rng.one_in(2);
    let lists = [
        &mut input.record[..],
        &mut input.hist,
        &mut input.cand,
        &mut input.msg,
    ];
    for word in lists.into_iter().flatten() {
        *word = match few {
            true => rng.below(9),
            false => rng.word(),
        };
    }
    input.event = rng.below(6);
}

/// Step inputs without end.
pub struct Inputs {
    rng: Rng,
    walk: Walk,
}

impl Inputs {
    pub fn new(seed: u64) -> Inputs {
        let mut rng = Rng::new(seed);
        let walk = Walk::new(&mut rng);
        Inputs { rng, walk }
    }

    fn scene(&mut self) -> Scene {
        let rng = &mut self.rng;
        match rng.below(10) {
            0..=2 => self.walk.next(rng),
            3 => {
                let mut scene = self.walk.next(rng);
                scene.event = event_for(rng, scene.sizes, &scene.server);
                scene
            }
            _ => {
                let sizes = sizes(rng);
                let stage = rng.index(STAGES) as u8;
                let server = formed(rng, sizes, stage);
                let event = event_for(rng, sizes, &server);
                Scene {
                    sizes,
                    server,
                    event,
                }
            }
        }
    }
}

impl Iterator for Inputs {
    type Item = StepInput;

    fn next(&mut self) -> Option<StepInput> {
        let scene = self.scene();
        let rng = &mut self.rng;
        let mut input = dress(rng, &scene);
        match rng.below(32) {
            0..=5 => damage_record(rng, &mut input.record),
            6 => damage(rng, &mut input.hist),
            7 => damage(rng, &mut input.cand),
            8..=10 => damage(rng, &mut input.msg),
            11 => {
                let fields = input.msg.len().min(6);
                damage(rng, &mut input.msg[..fields]);
            }
            12 => damage_lengths(rng, &mut input),
            13 => damage_sizes(rng, &mut input),
            14 if rng.one_in(4) => scramble(rng, &mut input),
            _ => {}
        }
        Some(input)
    }
}

/// The bytes of an input, one of the lent ones made longer or shorter by less
/// than a word or by any number of bytes.
pub fn odd_bytes(rng: &mut Rng, input: &StepInput) -> ByteInput {
    let mut bytes = input.bytes();
    let list = match rng.below(5) {
        0 => &mut bytes.record,
        1 => &mut bytes.hist,
        2 => &mut bytes.cand,
        3 => &mut bytes.msg,
        _ => &mut bytes.out,
    };
    let length = match rng.below(3) {
        0 => list.len().saturating_sub(rng.index(9)),
        1 => list.len() + rng.index(9),
        _ => rng.index(list.len() + 1),
    };
    list.resize(length, 0);
    bytes
}

// ----------------------------------------------------------------- scripts

const BAD_LINES: [&[u8]; 18] = [
    b"",
    b" ",
    b"O",
    b"O 0",
    b"O 0 0 ",
    b" R 0",
    b"R  0",
    b"R 00",
    b"R +0",
    b"R 0\r",
    b"S 0 18446744073709551616",
    b"S 0 -1",
    b"D 0 1 2",
    b"N 3",
    b"r 0",
    b"Q 1",
    b"S 0 1\0",
    b"S\t0 1",
];

fn line_of(event: cluster::Event) -> String {
    match event {
        cluster::Event::Oracle { s, x } => format!("O {s} {x}"),
        cluster::Event::Restart { s } => format!("R {s}"),
        cluster::Event::Deliver { from, to } => format!("D {from} {to}"),
        cluster::Event::Submit { s, v } => format!("S {s} {v}"),
    }
}

/// A random script: a first line, mostly a good one, then `lines` more, some
/// of them bad, and mostly a newline at the end.
pub fn script(rng: &mut Rng, lines: u64) -> Vec<u8> {
    let n = rng.within(3, 7);
    let mut text = match rng.below(20) {
        0 => rng.pick(&["N 2\n", "N 8\n", "N 03\n", "N 3\r\n", "\n", "O 0 0\n", ""]),
        _ => ["N 3\n", "N 4\n", "N 5\n", "N 6\n", "N 7\n"][n as usize - 3],
    }
    .as_bytes()
    .to_vec();
    let cluster = Cluster::new(n, ROOM, DEPTH).expect("sizes in bounds");
    let mut walk = Walk::of(cluster, lines);
    for _ in 0..lines {
        text.extend(script_line(rng, &mut walk, n));
        text.push(b'\n');
    }
    if rng.one_in(10) {
        text.pop();
    }
    text
}

fn script_line(rng: &mut Rng, walk: &mut Walk, n: u64) -> Vec<u8> {
    match rng.below(40) {
        0 => rng.pick(&BAD_LINES).to_vec(),
        1 => {
            let (from, to) = (rng.below(n + 1), rng.below(n + 1));
            format!("D {from} {to}").into_bytes()
        }
        _ => {
            let event = walk.choose(rng);
            let _ = walk.cluster.apply(event);
            line_of(event).into_bytes()
        }
    }
}
