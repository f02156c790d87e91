//! One input of a step, its words and its bytes, and what came of it.

use crate::bytes::{bytes_of, record_of, record_words, step_bytes, words_of, RECORD_WORDS};
use crate::server::Refusal;
use crate::words::{step_words, Record, EVENT_DELIVERY};

/// All that a step is given. The record is in words, so that one may be over
/// its field's width.
#[derive(Clone, Debug, PartialEq, Eq)]
pub struct StepInput {
    pub n: u64,
    pub room: u64,
    pub record: [u64; RECORD_WORDS],
    pub hist: Vec<u64>,
    pub cand: Vec<u64>,
    pub event: u64,
    pub who: u64,
    pub value: u64,
    pub msg: Vec<u64>,
    pub out: Vec<u64>,
}

/// The answer and every lent word after it.
#[derive(Clone, Debug, PartialEq, Eq)]
pub struct Outcome {
    pub code: u32,
    pub sent: u32,
    pub empties: bool,
    pub record: [u64; RECORD_WORDS],
    pub hist: Vec<u64>,
    pub cand: Vec<u64>,
    pub out: Vec<u64>,
}

impl StepInput {
    /// The record by value, none where a word is over its field's width.
    pub fn record(&self) -> Option<Record> {
        record_of(&self.record)
    }

    /// The model's answer, on words.
    pub fn run(&self) -> Outcome {
        let mut outcome = self.unchanged(Refusal::State.number());
        let Some(record) = self.record() else {
            return outcome;
        };
        let (code, sent, empties, after) = step_words(
            self.n,
            self.room,
            record,
            &mut outcome.hist,
            &mut outcome.cand,
            self.event,
            self.who,
            self.value,
            &self.msg,
            &mut outcome.out,
        );
        outcome.code = code;
        outcome.sent = sent;
        outcome.empties = empties;
        outcome.record = record_words(&after);
        outcome
    }

    /// What a refusal with this number leaves.
    pub fn unchanged(&self, code: u32) -> Outcome {
        Outcome {
            code,
            sent: 0,
            empties: false,
            record: self.record,
            hist: self.hist.clone(),
            cand: self.cand.clone(),
            out: self.out.clone(),
        }
    }

    /// The same input in bytes.
    pub fn bytes(&self) -> ByteInput {
        ByteInput {
            n: self.n,
            room: self.room,
            record: bytes_of(&self.record),
            hist: bytes_of(&self.hist),
            cand: bytes_of(&self.cand),
            event: self.event,
            who: self.who,
            value: self.value,
            msg: bytes_of(&self.msg),
            out: bytes_of(&self.out),
        }
    }
}

/// An input in bytes; a length need not be one of whole words.
#[derive(Clone, Debug, PartialEq, Eq)]
pub struct ByteInput {
    pub n: u64,
    pub room: u64,
    pub record: Vec<u8>,
    pub hist: Vec<u8>,
    pub cand: Vec<u8>,
    pub event: u64,
    pub who: u64,
    pub value: u64,
    pub msg: Vec<u8>,
    pub out: Vec<u8>,
}

impl ByteInput {
    /// The model's answer on bytes: code, sent, empties. The lent bytes of
    /// this input are changed in place.
    pub fn run(&mut self) -> (u32, u32, bool) {
        step_bytes(
            self.n,
            self.room,
            &mut self.record,
            &mut self.hist,
            &mut self.cand,
            self.event,
            self.who,
            self.value,
            &self.msg,
            &mut self.out,
        )
    }

    /// The same input in words; none where one of the lent bytes that the
    /// event looks at is of no whole words.
    pub fn words(&self) -> Option<StepInput> {
        let msg: &[u8] = match self.event {
            EVENT_DELIVERY => &self.msg,
            _ => &[],
        };
        Some(StepInput {
            n: self.n,
            room: self.room,
            record: words_of(&self.record)?.try_into().ok()?,
            hist: words_of(&self.hist)?,
            cand: words_of(&self.cand)?,
            event: self.event,
            who: self.who,
            value: self.value,
            msg: words_of(msg)?,
            out: words_of(&self.out)?,
        })
    }

    /// The outcome on bytes, read back as words. Only for an input whose
    /// lengths are whole words.
    pub fn outcome(mut self) -> Option<Outcome> {
        let (code, sent, empties) = self.run();
        Some(Outcome {
            code,
            sent,
            empties,
            record: words_of(&self.record)?.try_into().ok()?,
            hist: words_of(&self.hist)?,
            cand: words_of(&self.cand)?,
            out: words_of(&self.out)?,
        })
    }
}
