//! Seeded scripts of events for a cluster: elections that complete, values that
//! are delivered, and some disorder.

use std::collections::VecDeque;

use crate::rng::Rng;
use crate::runs::{Lot, Site, EVENT_WORDS, PLACE_N};
use crate::server::{Server, L4};
use crate::words::{EVENT_DELIVERY, EVENT_ORACLE, EVENT_RESTART, EVENT_SUBMISSION};

/// The answers to an event of a cluster: 0 to 12.
pub const CODES: usize = 13;

/// Events with an aim: a leader is named to all, its messages are delivered and
/// it is given values; now and then another one, a restart, or nonsense.
pub struct Aim {
    leader: u64,
    pending: VecDeque<[u64; EVENT_WORDS]>,
    /// How often each answer was met while the scripts were made: 0 is taken.
    pub codes: [u64; CODES],
}

impl Aim {
    pub fn new(rng: &mut Rng, n: u64) -> Aim {
        let mut aim = Aim {
            leader: 0,
            pending: VecDeque::new(),
            codes: [0; CODES],
        };
        aim.elect(rng, n);
        aim
    }

    /// Most of the servers are told of a leader, itself first or later.
    fn elect(&mut self, rng: &mut Rng, n: u64) {
        self.leader = rng.below(n);
        let mut all: Vec<u64> = (0..n).collect();
        rng.shuffle(&mut all);
        if !rng.one_in(4) {
            all.retain(|s| *s != self.leader);
            all.insert(0, self.leader);
        }
        let told = all.into_iter().filter(|_| !rng.one_in(9));
        let words: Vec<[u64; 3]> = told.map(|s| [EVENT_ORACLE, s, self.leader]).collect();
        self.pending.extend(words);
    }

    fn next(&mut self, rng: &mut Rng, site: &Site) -> [u64; EVENT_WORDS] {
        let n = site.sizes.n() as u64;
        if let Some(event) = self.pending.pop_front() {
            return event;
        }
        match rng.below(400) {
            0..2 => self.elect(rng, n),
            2..4 => return self.restart(rng, n),
            4..9 => return nonsense(rng, n),
            9..12 => return [EVENT_ORACLE, rng.below(n), self.leader],
            12..70 => return submission(rng, site).unwrap_or([EVENT_SUBMISSION, self.leader, 7]),
            _ => {}
        }
        let waiting = site.waiting();
        if !waiting.is_empty() {
            let (from, to) = rng.pick(&waiting);
            return [EVENT_DELIVERY, from, to];
        }
        submission(rng, site).unwrap_or_else(|| {
            self.elect(rng, n);
            [EVENT_ORACLE, self.leader, self.leader]
        })
    }

    /// A server restarts, and is then told of the leader.
    fn restart(&mut self, rng: &mut Rng, n: u64) -> [u64; EVENT_WORDS] {
        let s = rng.below(n);
        self.pending.push_back([EVENT_ORACLE, s, self.leader]);
        [EVENT_RESTART, s, rng.word()]
    }
}

/// A value for a leader that has room.
fn submission(rng: &mut Rng, site: &Site) -> Option<[u64; EVENT_WORDS]> {
    let room = site.sizes.room();
    let leads = |s: &&Server| s.stage == L4 && s.history.len() < room;
    let leader = site.servers.iter().find(leads)?;
    Some([EVENT_SUBMISSION, u64::from(leader.me), rng.word()])
}

/// Events of no known kind or server, and deliveries from anywhere.
fn nonsense(rng: &mut Rng, n: u64) -> [u64; EVENT_WORDS] {
    match rng.below(3) {
        0 => [rng.below(7), rng.below(n + 2), rng.below(n + 2)],
        1 => [EVENT_DELIVERY, rng.below(n), rng.below(n)],
        _ => [
            rng.within(1, 4),
            rng.pick(&[n, 255, 256, 1 << 32, u64::MAX]),
            rng.word(),
        ],
    }
}

/// A script, made on a copy of the words so that it fits what waits there.
pub fn script(rng: &mut Rng, lot: &Lot, length: usize, aim: &mut Aim) -> Vec<u64> {
    let mut copy = lot.clone();
    let n = copy.held[PLACE_N].clamp(3, 7);
    let Some(mut site) = Site::read(&mut copy) else {
        return (0..length).flat_map(|_| nonsense(rng, n)).collect();
    };
    let mut events = Vec::new();
    for _ in 0..length {
        let event = aim.next(rng, &site);
        let answer = site.apply(event[0], event[1], event[2]);
        aim.codes[answer.map_or_else(|refusal| refusal.number() as usize, |()| 0)] += 1;
        events.extend(event);
    }
    events
}
