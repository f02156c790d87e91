//! The run of a cluster on lent words.
//!
//! The cluster's struct travels as 369 words: n, H, D, how many events the last
//! run met, how many of them it took; seven records of 38 words; then for each
//! of 49 rings the slot of its first message, and for each how many wait.
//!
//! The queue has D message slots for each pair of servers; the ring of the
//! channel from f to t is number n × f + t. A slot that is taken or emptied is
//! zero, and a ring that an oracle's word or a restart emptied starts at slot 0.

use crate::bytes::{record_of, record_words, RECORD_WORDS};
use crate::formed::well_formed;
use crate::message::Message;
use crate::server::{sound_step, Event, Refusal, Server, Sizes, Taken, SEATS};
use crate::words::{
    history_words, outbox_slot_words, read_message, slot_words, unpack, write_history,
    write_message, write_outbox, Loan, Record, EVENT_DELIVERY, EVENT_ORACLE, EVENT_RESTART,
    EVENT_SUBMISSION, OUTBOX,
};

pub const RINGS: usize = SEATS * SEATS;

pub const PLACE_N: usize = 0;
pub const PLACE_ROOM: usize = 1;
pub const PLACE_DEPTH: usize = 2;
pub const PLACE_MET: usize = 3;
pub const PLACE_TAKEN: usize = 4;
pub const PLACE_RECORDS: usize = 5;
pub const PLACE_HEADS: usize = PLACE_RECORDS + SEATS * RECORD_WORDS;
pub const PLACE_COUNTS: usize = PLACE_HEADS + RINGS;
pub const HELD_WORDS: usize = PLACE_COUNTS + RINGS;

/// An event is three words: the kind and two numbers.
pub const EVENT_WORDS: usize = 3;

/// All words that a cluster is lent.
#[derive(Clone, Debug, PartialEq, Eq)]
pub struct Lot {
    pub held: Vec<u64>,
    pub hists: Vec<u64>,
    pub cands: Vec<u64>,
    pub queue: Vec<u64>,
    pub out: Vec<u64>,
}

impl Lot {
    /// Fresh servers, nothing waiting, every lent word zero.
    pub fn fresh(n: usize, room: usize, depth: usize) -> Lot {
        let mut held = vec![0; HELD_WORDS];
        held[PLACE_N] = n as u64;
        held[PLACE_ROOM] = room as u64;
        held[PLACE_DEPTH] = depth as u64;
        for seat in 0..SEATS {
            held[PLACE_RECORDS + seat * RECORD_WORDS] = seat as u64;
        }
        Lot {
            held,
            hists: vec![0; n * history_words(room)],
            cands: vec![0; n * history_words(room)],
            queue: vec![0; slot_words(room) * depth * n * n],
            out: vec![0; OUTBOX * outbox_slot_words(room)],
        }
    }

    /// A run: 0, or 1 and then every word is as it was.
    pub fn run(&mut self, events: &[u64], budget: usize) -> u8 {
        let whole = events.len().is_multiple_of(EVENT_WORDS);
        let Some(mut site) = Site::read(self).filter(|_| whole) else {
            return Refusal::State.number() as u8;
        };
        let (mut met, mut taken) = (0, 0);
        for event in events.chunks_exact(EVENT_WORDS).take(budget) {
            met += 1;
            taken += u64::from(site.apply(event[0], event[1], event[2]).is_ok());
        }
        let Site {
            servers,
            heads,
            counts,
            ..
        } = site;
        self.write(&servers, &heads, &counts);
        self.held[PLACE_MET] = met;
        self.held[PLACE_TAKEN] = taken;
        0
    }

    fn write(&mut self, servers: &[Server], heads: &[usize], counts: &[usize]) {
        let part = self.hists.len() / servers.len();
        let records = self.held[PLACE_RECORDS..PLACE_HEADS].chunks_exact_mut(RECORD_WORDS);
        for (words, server) in records.zip(servers) {
            words.copy_from_slice(&record_words(&Record::of(server)));
        }
        for (words, server) in self.hists.chunks_exact_mut(part).zip(servers) {
            write_history(words, &server.history);
        }
        for (words, server) in self.cands.chunks_exact_mut(part).zip(servers) {
            write_history(words, &server.candidate);
        }
        for ring in 0..RINGS {
            self.held[PLACE_HEADS + ring] = heads[ring] as u64;
            self.held[PLACE_COUNTS + ring] = counts[ring] as u64;
        }
    }
}

/// A cluster that is well formed, between its words: the servers are read, the
/// messages stay in the queue.
pub struct Site<'a> {
    pub sizes: Sizes,
    pub depth: usize,
    pub servers: Vec<Server>,
    heads: Vec<usize>,
    counts: Vec<usize>,
    queue: &'a mut [u64],
    out: &'a mut [u64],
}

impl<'a> Site<'a> {
    /// The cluster in these words; none where they are not well formed.
    pub fn read(lot: &'a mut Lot) -> Option<Site<'a>> {
        let (sizes, depth) = sizes_of(lot)?;
        let servers = servers_of(lot, sizes)?;
        let heads = numbers(&lot.held[PLACE_HEADS..PLACE_COUNTS], depth as u64 - 1)?;
        let counts = numbers(&lot.held[PLACE_COUNTS..], depth as u64)?;
        Some(Site {
            sizes,
            depth,
            servers,
            heads,
            counts,
            queue: &mut lot.queue,
            out: &mut lot.out,
        })
    }

    fn ring(&self, from: usize, to: usize) -> usize {
        self.sizes.n() * from + to
    }

    /// The words of slot `place` of a ring, counted from its first message.
    fn slot(&mut self, ring: usize, place: usize) -> &mut [u64] {
        let number = self.depth * ring + (self.heads[ring] + place) % self.depth;
        let size = slot_words(self.sizes.room());
        &mut self.queue[number * size..(number + 1) * size]
    }

    /// Every pair with a message waiting.
    pub fn waiting(&self) -> Vec<(u64, u64)> {
        let n = self.sizes.n();
        let all = (0..n).flat_map(|from| (0..n).map(move |to| (from, to)));
        all.filter(|(from, to)| self.counts[self.ring(*from, *to)] > 0)
            .map(|(from, to)| (from as u64, to as u64))
            .collect()
    }

    /// One event.
    pub fn apply(&mut self, kind: u64, a: u64, b: u64) -> Result<(), Refusal> {
        match kind {
            EVENT_ORACLE => self.local(a, &Event::Oracle(b)),
            EVENT_RESTART => self.local(a, &Event::Restart),
            EVENT_DELIVERY => self.deliver(a, b),
            EVENT_SUBMISSION => self.local(a, &Event::Submit(b)),
            _ => Err(Refusal::Event),
        }
    }

    fn seat(&self, s: u64) -> Result<usize, Refusal> {
        let known = s < self.sizes.n() as u64;
        known.then_some(s as usize).ok_or(Refusal::Event)
    }

    fn local(&mut self, s: u64, event: &Event) -> Result<(), Refusal> {
        let s = self.seat(s)?;
        let taken = sound_step(self.sizes, &self.servers[s], event)?;
        self.has_room(s, &taken)?;
        self.commit(s, taken);
        Ok(())
    }

    /// The first message of a channel handed over. Taken, or refused with 3 to
    /// 11, it leaves its channel.
    fn deliver(&mut self, from: u64, to: u64) -> Result<(), Refusal> {
        let (f, t) = (self.seat(from)?, self.seat(to)?);
        let ring = self.ring(f, t);
        if self.counts[ring] == 0 {
            return Err(Refusal::Event);
        }
        let room = self.sizes.room();
        let message = read_message(self.slot(ring, 0), room).ok();
        match sound_step(
            self.sizes,
            &self.servers[t],
            &Event::Deliver { from, message },
        ) {
            Err(refusal) => {
                if (3..=11).contains(&refusal.number()) {
                    self.pop(ring);
                }
                Err(refusal)
            }
            Ok(taken) => {
                self.has_room(t, &taken)?;
                self.pop(ring);
                self.commit(t, taken);
                Ok(())
            }
        }
    }

    /// ROOM: a channel from this server would hold more than D.
    fn has_room(&self, s: usize, taken: &Taken) -> Result<(), Refusal> {
        let mut after = [0; SEATS];
        for (to, _) in &taken.sent {
            after[*to] += 1;
        }
        let fits = (0..self.sizes.n()).all(|to| {
            let waiting = match taken.empties {
                true => 0,
                false => self.counts[self.ring(s, to)],
            };
            waiting + after[to] <= self.depth
        });
        fits.then_some(()).ok_or(Refusal::Room)
    }

    fn commit(&mut self, s: usize, taken: Taken) {
        if taken.empties {
            for other in 0..self.sizes.n() {
                self.empty(self.ring(s, other));
                self.empty(self.ring(other, s));
            }
        }
        for (to, message) in &taken.sent {
            self.push(self.ring(s, *to), message);
        }
        write_outbox(self.out, &taken.sent, self.sizes.room());
        self.servers[s] = taken.next;
    }

    fn push(&mut self, ring: usize, message: &Message) {
        let place = self.counts[ring];
        write_message(self.slot(ring, place), message);
        self.counts[ring] += 1;
    }

    fn pop(&mut self, ring: usize) {
        self.slot(ring, 0).fill(0);
        self.heads[ring] = (self.heads[ring] + 1) % self.depth;
        self.counts[ring] -= 1;
    }

    fn empty(&mut self, ring: usize) {
        let size = self.depth * slot_words(self.sizes.room());
        self.queue[ring * size..(ring + 1) * size].fill(0);
        self.heads[ring] = 0;
        self.counts[ring] = 0;
    }
}

/// The sizes and the depth, if as many words are lent as they ask.
fn sizes_of(lot: &Lot) -> Option<(Sizes, usize)> {
    if lot.held.len() != HELD_WORDS {
        return None;
    }
    let sizes = Sizes::of(lot.held[PLACE_N], lot.held[PLACE_ROOM])?;
    let depth = usize::try_from(lot.held[PLACE_DEPTH]).ok()?;
    let (n, room) = (sizes.n(), sizes.room());
    let good = (2..=16).contains(&depth)
        && lot.hists.len() == n * history_words(room)
        && lot.cands.len() == n * history_words(room)
        && lot.queue.len() == slot_words(room) * depth * n * n
        && lot.out.len() >= OUTBOX * outbox_slot_words(room);
    good.then_some((sizes, depth))
}

/// The servers, each with its own number and well formed. A place past the
/// last server holds any record whose words fit.
fn servers_of(lot: &Lot, sizes: Sizes) -> Option<Vec<Server>> {
    let words = lot.held[PLACE_RECORDS..PLACE_HEADS].chunks_exact(RECORD_WORDS);
    let records: Option<Vec<Record>> = words.map(record_of).collect();
    let part = history_words(sizes.room());
    let parts = lot
        .hists
        .chunks_exact(part)
        .zip(lot.cands.chunks_exact(part));
    let seats = records?.into_iter().zip(parts).enumerate();
    seats
        .map(|(i, (record, (hist, cand)))| seated(lot, sizes, i, &record, hist, cand))
        .collect()
}

fn seated(
    lot: &Lot,
    sizes: Sizes,
    i: usize,
    record: &Record,
    hist: &[u64],
    cand: &[u64],
) -> Option<Server> {
    let loan = Loan {
        n: sizes.n() as u64,
        room: sizes.room() as u64,
        record,
        hist,
        cand,
        event: EVENT_RESTART,
        msg: &[],
        out: lot.out.len(),
    };
    let (_, server) = unpack(&loan).ok()?;
    let good = usize::from(server.me) == i && well_formed(sizes, &server);
    good.then_some(server)
}

/// The words as numbers; none where one is over `most`.
fn numbers(words: &[u64], most: u64) -> Option<Vec<usize>> {
    let small = |word: &u64| (*word <= most).then_some(*word as usize);
    words.iter().map(small).collect()
}
