//! A bounded cluster of servers.

use std::collections::VecDeque;

use crate::formed::well_formed;
use crate::message::Message;
use crate::server::{self, Refusal, Server, Sizes, Taken, L4};
use crate::trace::Record;

/// The events of a cluster, by the letters of the script.
#[derive(Clone, Copy, Debug, PartialEq, Eq)]
pub enum Event {
    /// O s x
    Oracle { s: u64, x: u64 },
    /// R s
    Restart { s: u64 },
    /// D from to
    Deliver { from: u64, to: u64 },
    /// S s v
    Submit { s: u64, v: u64 },
}

#[derive(Clone, Debug, PartialEq, Eq)]
pub struct Cluster {
    sizes: Sizes,
    depth: usize,
    pub servers: Vec<Server>,
    /// `channels[from][to]`, first in, first out.
    pub channels: Vec<Vec<VecDeque<Message>>>,
}

impl Cluster {
    /// Fresh servers and empty channels; none if n, H or D is out of bounds
    /// (D is 2 to 16).
    pub fn new(n: u64, room: u64, depth: u64) -> Option<Cluster> {
        let sizes = Sizes::of(n, room)?;
        let n = sizes.n();
        (2..=16).contains(&depth).then(|| Cluster {
            sizes,
            depth: depth as usize,
            servers: (0..n as u8).map(Server::fresh).collect(),
            channels: vec![vec![VecDeque::new(); n]; n],
        })
    }

    pub fn sizes(&self) -> Sizes {
        self.sizes
    }

    pub fn depth(&self) -> usize {
        self.depth
    }

    /// Every pair with a message waiting.
    pub fn waiting(&self) -> Vec<(usize, usize)> {
        let n = self.sizes.n();
        (0..n)
            .flat_map(|from| (0..n).map(move |to| (from, to)))
            .filter(|(from, to)| !self.channels[*from][*to].is_empty())
            .collect()
    }

    /// One event: its records, in the order E, B, V, or a refusal.
    pub fn apply(&mut self, event: Event) -> Result<Vec<Record>, Refusal> {
        if !self.servers.iter().all(|s| well_formed(self.sizes, s)) {
            return Err(Refusal::State);
        }
        let (s, step_event) = self.addressed(event)?;
        match server::step(self.sizes, &self.servers[s], &step_event) {
            Err(refusal) => {
                self.drop_refused(event, refusal);
                Err(refusal)
            }
            Ok(taken) => {
                self.has_room(s, &taken)?;
                self.take_head(event);
                Ok(self.commit(s, event, taken))
            }
        }
    }

    /// The server an event is for and the step it asks of it. EVENT: unknown
    /// server, sender equal to receiver, empty channel.
    pub fn addressed(&self, event: Event) -> Result<(usize, server::Event), Refusal> {
        match event {
            Event::Oracle { s, x } => {
                self.seat(x)?;
                Ok((self.seat(s)?, server::Event::Oracle(x)))
            }
            Event::Restart { s } => Ok((self.seat(s)?, server::Event::Restart)),
            Event::Submit { s, v } => Ok((self.seat(s)?, server::Event::Submit(v))),
            Event::Deliver { from, to } => {
                let (f, t) = (self.seat(from)?, self.seat(to)?);
                let head = self.channels[f][t].front().filter(|_| f != t);
                let message = Some(head.ok_or(Refusal::Event)?.clone());
                Ok((t, server::Event::Deliver { from, message }))
            }
        }
    }

    fn seat(&self, s: u64) -> Result<usize, Refusal> {
        let known = s < self.sizes.n() as u64;
        known.then_some(s as usize).ok_or(Refusal::Event)
    }

    /// A delivery refused with 3 to 11 drops the message handed over.
    fn drop_refused(&mut self, event: Event, refusal: Refusal) {
        if (3..=11).contains(&refusal.number()) {
            self.take_head(event);
        }
    }

    /// Takes the message of a delivery from its channel.
    fn take_head(&mut self, event: Event) {
        if let Event::Deliver { from, to } = event {
            self.channels[from as usize][to as usize].pop_front();
        }
    }

    /// ROOM: a channel would pass D. Room is D less the messages waiting now;
    /// an oracle event counts it after emptying.
    fn has_room(&self, s: usize, taken: &Taken) -> Result<(), Refusal> {
        let passes = |to: usize| {
            let new = taken.sent.iter().filter(|(r, _)| *r == to).count();
            let waiting = match taken.empties {
                true => 0,
                false => self.channels[s][to].len(),
            };
            waiting + new > self.depth
        };
        match taken.sent.iter().any(|(to, _)| passes(*to)) {
            true => Err(Refusal::Room),
            false => Ok(()),
        }
    }

    fn commit(&mut self, s: usize, event: Event, taken: Taken) -> Vec<Record> {
        let records = records(&self.servers[s], event, &taken.next);
        if taken.empties {
            self.empty_channels(s);
        }
        for (to, message) in taken.sent {
            self.channels[s][to].push_back(message);
        }
        self.servers[s] = taken.next;
        records
    }

    /// All channels to and from this server emptied.
    fn empty_channels(&mut self, s: usize) {
        for other in 0..self.sizes.n() {
            self.channels[s][other].clear();
            self.channels[other][s].clear();
        }
    }
}

/// E when a server enters L4, B at a submission taken, V for each transaction
/// newly delivered.
fn records(before: &Server, event: Event, after: &Server) -> Vec<Record> {
    let server = u64::from(after.me);
    let mut records = Vec::new();
    if before.stage != L4 && after.stage == L4 {
        records.push(Record::E {
            server,
            epoch: after.p,
        });
    }
    if let (Event::Submit { .. }, Some(tx)) = (event, after.history.last()) {
        records.push(Record::B { server, tx: *tx });
    }
    let new = &after.delivered()[before.d as usize..];
    records.extend(new.iter().map(|tx| Record::V { server, tx: *tx }));
    records
}
