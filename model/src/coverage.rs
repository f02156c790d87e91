//! What a run of inputs has reached: refusals, cells of the table, clauses,
//! faults and the branches of the steps.

use std::fmt::Write;

use crate::formed::{broken, CLAUSES};
use crate::input::{Outcome, StepInput};
use crate::message::{
    counter_of, epoch_of, fault, last_id, next_counter, Kind, Message, FAULTS, KINDS, LAST,
};
use crate::server::{is_follower, Cell, Refusal, Server, Sizes, F1, L1, L2, L3, L4, STAGES, TABLE};
use crate::words::{
    read_message, unpack, Loan, EVENT_DELIVERY, EVENT_ORACLE, EVENT_RESTART, EVENT_SUBMISSION,
    LENTS, TAKEN,
};

/// The codes of a step: 0 taken, 1 to 11 refused.
pub const CODES: usize = 12;

const STAGE_NAMES: [&str; STAGES] = ["LOOK", "F1", "F2", "F3", "F4", "L1", "L2", "L3", "L4"];
const KIND_NAMES: [&str; 9] = [
    "CEPOCH",
    "NEWEPOCH",
    "ACK-E",
    "NEWLEADER",
    "ACK-LD",
    "COMMIT-LD",
    "PROPOSE",
    "ACK",
    "COMMIT",
];
const CODE_NAMES: [&str; CODES] = [
    "taken", "STATE", "EVENT", "MESSAGE", "ROLE", "SENDER", "PHASE", "EPOCH", "GAP", "UNDO",
    "FULL", "SPENT",
];

/// An input whose record and lent words are well formed, and what came of it.
struct Case {
    sizes: Sizes,
    event: u64,
    who: u64,
    before: Server,
    message: Option<Message>,
    code: u32,
    sent: u32,
    after: Server,
}

impl Case {
    fn kind(&self) -> Option<Kind> {
        self.message.as_ref().map(Message::kind)
    }

    /// Taken, of this kind, from one stage to another.
    fn took(&self, kind: Kind, from: u8, to: u8) -> bool {
        self.code == TAKEN
            && self.kind() == Some(kind)
            && (self.before.stage, self.after.stage) == (from, to)
    }

    fn takes(&self, kind: Kind) -> bool {
        self.code == TAKEN && self.kind() == Some(kind)
    }

    fn refused(&self, refusal: Refusal) -> bool {
        self.code == refusal.number()
    }

    fn rose(&self) -> bool {
        self.after.d > self.before.d
    }

    fn submitted(&self) -> bool {
        self.event == EVENT_SUBMISSION && self.code == TAKEN
    }

    /// The pair of an ACK-E against that of the candidate.
    fn pair_equal(&self) -> bool {
        match &self.message {
            Some(Message::AckE { a, history, .. }) => {
                let before = &self.before;
                (*a, last_id(history)) == (before.cand_a, last_id(&before.candidate))
                    && *history != before.candidate
            }
            _ => false,
        }
    }

    fn carried(&self) -> usize {
        match &self.message {
            Some(Message::AckE { history, .. } | Message::NewLeader { history, .. }) => {
                history.len()
            }
            _ => 0,
        }
    }

    fn place(&self) -> Option<u32> {
        match self.message {
            Some(Message::Propose { place, .. }) => Some(place),
            _ => None,
        }
    }

    fn last_counter_spent(&self) -> bool {
        next_counter(&self.before.history, self.before.p) > u64::from(LAST)
    }
}

/// A branch of a step and the test that a case went through it.
type Branch = (&'static str, fn(&Case) -> bool);

const BRANCHES: [Branch; 48] = [
    ("oracle: itself", |c| {
        c.event == EVENT_ORACLE && c.code == TAKEN && c.after.stage == L1
    }),
    ("oracle: another", |c| {
        c.event == EVENT_ORACLE && c.code == TAKEN && c.after.stage == F1
    }),
    ("oracle: the same again", |c| {
        c.event == EVENT_ORACLE && c.code == TAKEN && c.before.oracle == c.after.oracle
    }),
    ("oracle: unknown server", |c| {
        c.event == EVENT_ORACLE && c.refused(Refusal::Event)
    }),
    ("delivery: unknown sender", |c| {
        c.event == EVENT_DELIVERY && c.refused(Refusal::Event) && c.who >= c.sizes.n() as u64
    }),
    ("delivery: from itself", |c| {
        c.event == EVENT_DELIVERY && c.refused(Refusal::Event) && c.who == u64::from(c.before.me)
    }),
    ("CEPOCH in L1 below a quorum", |c| {
        c.took(Kind::Cepoch, L1, L1)
    }),
    ("CEPOCH in L1 at a quorum", |c| c.took(Kind::Cepoch, L1, L2)),
    ("CEPOCH in L1, a quorum before", |c| {
        c.took(Kind::Cepoch, L1, L2) && c.sizes.quorum(&c.before.joined)
    }),
    ("CEPOCH in L1 gives the last epoch", |c| {
        c.took(Kind::Cepoch, L1, L2) && c.after.p == LAST
    }),
    ("CEPOCH in L1 of 4294967295 below a quorum", |c| {
        c.took(Kind::Cepoch, L1, L1) && c.after.largest == LAST
    }),
    ("SPENT by this message", |c| {
        c.refused(Refusal::Spent) && c.before.largest < LAST
    }),
    ("SPENT by the largest seen before", |c| {
        c.refused(Refusal::Spent) && c.before.largest == LAST
    }),
    ("CEPOCH in L3 or L4 from one synced", |c| {
        c.takes(Kind::Cepoch) && c.before.synced[c.who as usize] && c.sent == 2
    }),
    ("CEPOCH in L3 or L4 keeps a count", |c| {
        c.takes(Kind::Cepoch) && c.before.stage >= L3 && c.after.counts[c.who as usize] > 0
    }),
    ("CEPOCH in L2 from one counted", |c| {
        c.took(Kind::Cepoch, L2, L2) && c.before.acked[c.who as usize]
    }),
    ("ACK-E below a quorum, candidate stays", |c| {
        c.took(Kind::AckE, L2, L2) && c.after.candidate == c.before.candidate
    }),
    ("ACK-E below a quorum, candidate replaced", |c| {
        c.took(Kind::AckE, L2, L2) && c.after.candidate != c.before.candidate
    }),
    ("ACK-E at a quorum, candidate stays", |c| {
        c.took(Kind::AckE, L2, L3) && c.after.history == c.before.candidate
    }),
    ("ACK-E at a quorum, the message's wins", |c| {
        c.took(Kind::AckE, L2, L3) && c.after.history != c.before.candidate
    }),
    ("ACK-E with an equal pair of other values", |c| {
        c.takes(Kind::AckE) && c.before.stage == L2 && c.pair_equal()
    }),
    ("ACK-E at a quorum, self not counted", |c| {
        c.took(Kind::AckE, L2, L3) && !c.before.acked[usize::from(c.before.me)]
    }),
    ("ACK-E from one counted, another e", |c| {
        c.kind() == Some(Kind::AckE)
            && c.refused(Refusal::Phase)
            && c.before.stage == L2
            && c.message.as_ref().is_some_and(|m| m.epoch() != c.before.p)
    }),
    ("ACK-LD in L3 below a quorum", |c| {
        c.took(Kind::AckLd, L3, L3)
    }),
    ("ACK-LD in L3 at a quorum", |c| c.took(Kind::AckLd, L3, L4)),
    ("ACK-LD in L3 at a quorum, self not synced", |c| {
        c.took(Kind::AckLd, L3, L4) && !c.before.synced[usize::from(c.before.me)]
    }),
    ("ACK-LD in L4, d rose", |c| {
        c.took(Kind::AckLd, L4, L4) && c.rose() && c.sent > 1
    }),
    ("ACK-LD in L4, d stayed", |c| {
        c.took(Kind::AckLd, L4, L4) && !c.rose()
    }),
    ("ACK-LD in L4, six messages", |c| {
        c.took(Kind::AckLd, L4, L4) && c.sent == 6
    }),
    ("ACK, d rose", |c| c.takes(Kind::Ack) && c.rose()),
    ("ACK, d rose by more than one", |c| {
        c.takes(Kind::Ack) && c.after.d > c.before.d + 1
    }),
    ("ACK, d stayed", |c| c.takes(Kind::Ack) && !c.rose()),
    ("NEWEPOCH equal to p", |c| {
        c.takes(Kind::NewEpoch) && c.sent == 0
    }),
    ("NEWEPOCH above p", |c| {
        c.takes(Kind::NewEpoch) && c.sent == 1
    }),
    ("NEWLEADER shorter than the history", |c| {
        c.takes(Kind::NewLeader) && c.after.length() < c.before.length()
    }),
    ("NEWLEADER longer than the history", |c| {
        c.takes(Kind::NewLeader) && c.after.length() > c.before.length()
    }),
    ("UNDO: shorter than d", |c| {
        c.refused(Refusal::Undo) && c.carried() < c.before.d as usize
    }),
    ("UNDO: as long as d, but other", |c| {
        c.refused(Refusal::Undo) && c.carried() >= c.before.d as usize
    }),
    ("PROPOSE first of its epoch", |c| {
        c.takes(Kind::Propose) && epoch_of(last_id(&c.before.history)) != c.before.p
    }),
    ("PROPOSE goes on in its epoch", |c| {
        c.takes(Kind::Propose) && epoch_of(last_id(&c.before.history)) == c.before.p
    }),
    ("PROPOSE GAP by its counter alone", |c| {
        c.refused(Refusal::Gap) && c.place() == Some(c.before.length() + 1)
    }),
    ("PROPOSE GAP after the last counter", |c| {
        c.refused(Refusal::Gap)
            && c.place() == Some(c.before.length() + 1)
            && c.last_counter_spent()
    }),
    ("PROPOSE GAP at length H", |c| {
        c.refused(Refusal::Gap) && c.place().is_some() && c.before.history.len() == c.sizes.room()
    }),
    ("COMMIT-LD leaves a tail undelivered", |c| {
        c.takes(Kind::CommitLd) && c.after.d < c.after.length()
    }),
    ("COMMIT below d", |c| {
        matches!(c.message, Some(Message::Commit { count, .. })
            if c.code == TAKEN && count < c.before.d)
    }),
    ("COMMIT above d", |c| c.takes(Kind::Commit) && c.rose()),
    ("submission taken", |c| {
        c.submitted() && counter_of(last_id(&c.after.history)) > 1
    }),
    ("submission FULL at the last counter", |c| {
        c.event == EVENT_SUBMISSION
            && c.refused(Refusal::Full)
            && c.before.history.len() < c.sizes.room()
            && c.last_counter_spent()
    }),
];

/// Counts of what was hit.
#[derive(Clone, Debug)]
pub struct Coverage {
    pub inputs: u64,
    /// By code.
    pub codes: [u64; CODES],
    /// Deliveries with a well-formed record, by kind, stage and code.
    pub cells: [[[u64; CODES]; STAGES]; 9],
    /// Oracle, restart and submission, by stage and code.
    pub events: [[[u64; CODES]; STAGES]; 3],
    /// Causes of STATE in the sizes and lent words, the first found.
    pub lents: [u64; LENTS.len()],
    /// A word of the record over its field's width.
    pub over_width: u64,
    /// Clauses of the record, each where no other was broken.
    pub clauses: [u64; CLAUSES.len()],
    /// Causes of MESSAGE, the first found.
    pub faults: [u64; FAULTS.len()],
    pub branches: [u64; BRANCHES.len()],
}

impl Default for Coverage {
    fn default() -> Coverage {
        Coverage {
            inputs: 0,
            codes: [0; CODES],
            cells: [[[0; CODES]; STAGES]; 9],
            events: [[[0; CODES]; STAGES]; 3],
            lents: [0; LENTS.len()],
            over_width: 0,
            clauses: [0; CLAUSES.len()],
            faults: [0; FAULTS.len()],
            branches: [0; BRANCHES.len()],
        }
    }
}

impl Coverage {
    pub fn note(&mut self, input: &StepInput, outcome: &Outcome) {
        self.inputs += 1;
        self.codes[outcome.code as usize] += 1;
        let Some(record) = input.record() else {
            self.over_width += 1;
            return;
        };
        match unpack(&loan(input, &record)) {
            Err(lent) => {
                let at = LENTS.iter().position(|l| *l == lent);
                self.lents[at.expect("a listed cause")] += 1;
            }
            Ok((sizes, server)) => self.note_record(input, outcome, sizes, server),
        }
    }

    fn note_record(&mut self, input: &StepInput, outcome: &Outcome, sizes: Sizes, server: Server) {
        match broken(sizes, &server).as_slice() {
            [] => self.note_step(input, outcome, sizes, server),
            [only] => self.clauses[*only] += 1,
            _ => {}
        }
    }

    fn note_step(&mut self, input: &StepInput, outcome: &Outcome, sizes: Sizes, before: Server) {
        let stage = usize::from(before.stage);
        let code = outcome.code as usize;
        let mut message = None;
        match input.event {
            EVENT_DELIVERY => {
                if let Some(kind) = Kind::of(input.msg[0]) {
                    self.cells[kind.row()][stage][code] += 1;
                }
                message = self.note_message(input, outcome, sizes);
            }
            EVENT_ORACLE | EVENT_RESTART => {
                self.events[input.event as usize - 1][stage][code] += 1;
            }
            EVENT_SUBMISSION => self.events[2][stage][code] += 1,
            _ => {}
        }
        self.note_branches(&Case {
            sizes,
            event: input.event,
            who: input.who,
            after: after(input, outcome, &before),
            before,
            message,
            code: outcome.code,
            sent: outcome.sent,
        });
    }

    /// The message, if it is well formed; its first fault is counted where it
    /// made the answer.
    fn note_message(
        &mut self,
        input: &StepInput,
        outcome: &Outcome,
        sizes: Sizes,
    ) -> Option<Message> {
        let read = read_message(&input.msg, sizes.room());
        let found = match &read {
            Ok(message) => fault(message, sizes.room()),
            Err(fault) => Some(*fault),
        };
        if let (Some(found), 3) = (found, outcome.code) {
            let at = FAULTS.iter().position(|f| *f == found);
            self.faults[at.expect("a listed cause")] += 1;
        }
        read.ok().filter(|_| found.is_none())
    }

    fn note_branches(&mut self, case: &Case) {
        for (count, (_, went)) in self.branches.iter_mut().zip(BRANCHES) {
            *count += u64::from(went(case));
        }
    }

    /// What can be hit and never was.
    pub fn missing(&self) -> Vec<String> {
        let mut missing = Vec::new();
        let mut need = |count: u64, name: String| {
            if count == 0 {
                missing.push(name);
            }
        };
        for (code, count) in self.codes.iter().enumerate() {
            need(*count, CODE_NAMES[code].to_string());
        }
        for (name, count) in self.named_cells() {
            need(count, name);
        }
        for (name, count) in self.named_causes() {
            need(count, name);
        }
        missing
    }

    /// Each kind, stage and code, and each event, stage and code, that can be
    /// hit, with its count.
    fn named_cells(&self) -> Vec<(String, u64)> {
        let mut named = Vec::new();
        for stage in 0..STAGES {
            for code in 0..CODES {
                for kind in KINDS {
                    if can_be(kind, stage as u8, code) {
                        let name = format!("{} {}", KIND_NAMES[kind.row()], at(stage, code));
                        named.push((name, self.cells[kind.row()][stage][code]));
                    }
                }
                for (event, name) in ["oracle", "restart", "submission"].iter().enumerate() {
                    if event_can_be(event, stage as u8, code) {
                        let name = format!("{name} {}", at(stage, code));
                        named.push((name, self.events[event][stage][code]));
                    }
                }
            }
        }
        named
    }

    /// Causes of STATE and MESSAGE, and branches. Two clauses are seen in the
    /// lent words before the record is looked at.
    fn named_causes(&self) -> Vec<(String, u64)> {
        let mut named = vec![("over its width".to_string(), self.over_width)];
        let lents = LENTS.iter().zip(self.lents);
        named.extend(lents.map(|(lent, count)| (format!("lent: {lent:?}"), count)));
        let clauses = CLAUSES.iter().zip(self.clauses);
        let seen = clauses.filter(|(clause, _)| !clause.words.ends_with("length <= H"));
        named.extend(seen.map(|(clause, count)| (format!("not: {}", clause.words), count)));
        let faults = FAULTS.iter().zip(self.faults);
        named.extend(faults.map(|(fault, count)| (format!("fault: {fault:?}"), count)));
        let branches = BRANCHES.iter().zip(self.branches);
        named.extend(branches.map(|(branch, count)| (branch.0.to_string(), count)));
        named
    }

    pub fn report(&self) -> String {
        let mut text = format!("inputs {}\n", self.inputs);
        for (name, count) in CODE_NAMES.iter().zip(self.codes) {
            let _ = writeln!(text, "{count:8} {name}");
        }
        text.push_str("taken cells, LOOK F1 F2 F3 F4 L1 L2 L3 L4\n");
        for kind in KINDS {
            let row = self.cells[kind.row()].map(|cell| format!("{:6}", cell[0]));
            let _ = writeln!(text, "{} {}", row.join(" "), KIND_NAMES[kind.row()]);
        }
        let cells = self.named_cells();
        let least = cells.iter().min_by_key(|(_, count)| *count);
        let _ = writeln!(text, "outcomes by cell {}, least {least:?}", cells.len());
        for (name, count) in self.named_causes() {
            let _ = writeln!(text, "{count:8} {name}");
        }
        text
    }
}

fn at(stage: usize, code: usize) -> String {
    format!("in {}: {}", STAGE_NAMES[stage], CODE_NAMES[code])
}

fn loan<'a>(input: &'a StepInput, record: &'a crate::words::Record) -> Loan<'a> {
    Loan {
        n: input.n,
        room: input.room,
        record,
        hist: &input.hist,
        cand: &input.cand,
        event: input.event,
        msg: &input.msg,
        out: input.out.len(),
    }
}

/// The server after the step, read from the lent words.
fn after(input: &StepInput, outcome: &Outcome, before: &Server) -> Server {
    let after = StepInput {
        record: outcome.record,
        hist: outcome.hist.clone(),
        cand: outcome.cand.clone(),
        ..input.clone()
    };
    let record = after.record();
    let read = record.and_then(|record| unpack(&loan(&after, &record)).ok());
    read.map_or_else(|| before.clone(), |(_, server)| server)
}

/// Whether a delivery of a kind in a stage can be answered with a code, where
/// the record and the lent words are well formed.
pub fn can_be(kind: Kind, stage: u8, code: usize) -> bool {
    let cell = TABLE[kind.row()][usize::from(stage)];
    let taken = cell == Cell::Taken;
    match code {
        0 => taken,
        2 | 3 => true,
        4 => cell == Cell::Role,
        5 => cell != Cell::Role && (is_follower(stage) || kind != Kind::Cepoch),
        6 => cell == Cell::Phase || (kind == Kind::AckE && stage == L2),
        7 => taken && !(kind == Kind::Cepoch && stage == L1),
        8 => {
            let places = [
                Kind::AckLd,
                Kind::CommitLd,
                Kind::Propose,
                Kind::Ack,
                Kind::Commit,
            ];
            taken && places.contains(&kind)
        }
        9 => taken && (kind == Kind::NewLeader || (kind == Kind::AckE && stage == L2)),
        10 => taken && kind == Kind::Propose,
        11 => taken && kind == Kind::Cepoch && stage == L1,
        _ => false,
    }
}

/// The same of an oracle event (0), a restart (1) and a submission (2).
fn event_can_be(event: usize, stage: u8, code: usize) -> bool {
    match (event, code) {
        (0, 2) | (0..=1, 0) => true,
        (2, 0 | 10) => stage == L4,
        (2, 4) => stage != L4,
        _ => false,
    }
}
