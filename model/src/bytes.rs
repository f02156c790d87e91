//! The step on lent bytes, eight to a word, lowest first.
//!
//! The record travels as 38 words: me, stage, oracle, p, a, d, len, largest,
//! cand_a, cand_len, joined, acked, synced (seven each, 0 or 1) and the seven
//! counts.

use crate::server::{Refusal, Set, SEATS};
use crate::words::{step_words, Record, EVENT_DELIVERY, TAKEN};

pub const RECORD_WORDS: usize = 38;

/// The words of some bytes; none where the bytes are no whole words.
pub fn words_of(bytes: &[u8]) -> Option<Vec<u64>> {
    let whole = bytes.len().is_multiple_of(8);
    whole.then(|| bytes.chunks_exact(8).map(word_of).collect())
}

fn word_of(bytes: &[u8]) -> u64 {
    bytes
        .iter()
        .rev()
        .fold(0, |word, byte| (word << 8) | u64::from(*byte))
}

pub fn bytes_of(words: &[u64]) -> Vec<u8> {
    words.iter().flat_map(|word| word.to_le_bytes()).collect()
}

fn write_bytes(bytes: &mut [u8], words: &[u64]) {
    for (slot, word) in bytes.chunks_exact_mut(8).zip(words) {
        slot.copy_from_slice(&word.to_le_bytes());
    }
}

pub fn record_words(record: &Record) -> [u64; RECORD_WORDS] {
    let mut words = [0; RECORD_WORDS];
    let numbers = [
        u32::from(record.me),
        u32::from(record.stage),
        u32::from(record.oracle),
        record.p,
        record.a,
        record.d,
        record.len,
        record.largest,
        record.cand_a,
        record.cand_len,
    ];
    let sets = [record.joined, record.acked, record.synced];
    let members = sets.into_iter().flatten().map(u32::from);
    let all = numbers.into_iter().chain(members).chain(record.counts);
    for (word, number) in words.iter_mut().zip(all) {
        *word = u64::from(number);
    }
    words
}

/// The record, or none where a word is over its field's width.
pub fn record_of(words: &[u64]) -> Option<Record> {
    if words.len() != RECORD_WORDS {
        return None;
    }
    let small = |k: usize| u8::try_from(words[k]).ok();
    let number = |k: usize| u32::try_from(words[k]).ok();
    Some(Record {
        me: small(0)?,
        stage: small(1)?,
        oracle: small(2)?,
        p: number(3)?,
        a: number(4)?,
        d: number(5)?,
        len: number(6)?,
        largest: number(7)?,
        cand_a: number(8)?,
        cand_len: number(9)?,
        joined: set_of(&words[10..17])?,
        acked: set_of(&words[17..24])?,
        synced: set_of(&words[24..31])?,
        counts: counts_of(&words[31..38])?,
    })
}

fn set_of(words: &[u64]) -> Option<Set> {
    let mut set = [false; SEATS];
    for (member, word) in set.iter_mut().zip(words) {
        *member = match word {
            0 => false,
            1 => true,
            _ => return None,
        };
    }
    Some(set)
}

fn counts_of(words: &[u64]) -> Option<[u32; SEATS]> {
    let mut counts = [0; SEATS];
    for (count, word) in counts.iter_mut().zip(words) {
        *count = u32::try_from(*word).ok()?;
    }
    Some(counts)
}

/// The step on lent bytes: the code, how many messages were sent, whether the
/// channels are emptied. Lent bytes that are no whole words have a wrong length.
#[allow(clippy::too_many_arguments)]
pub fn step_bytes(
    n: u64,
    room: u64,
    record: &mut [u8],
    hist: &mut [u8],
    cand: &mut [u8],
    event: u64,
    who: u64,
    value: u64,
    msg: &[u8],
    out: &mut [u8],
) -> (u32, u32, bool) {
    let refused = (Refusal::State.number(), 0, false);
    let msg = if event == EVENT_DELIVERY { msg } else { &[] };
    let (Some(before), Some(mut h), Some(mut c), Some(m), Some(mut o)) = (
        words_of(record).and_then(|words| record_of(&words)),
        words_of(hist),
        words_of(cand),
        words_of(msg),
        words_of(out),
    ) else {
        return refused;
    };
    let (code, sent, empties, after) = step_words(
        n, room, before, &mut h, &mut c, event, who, value, &m, &mut o,
    );
    if code == TAKEN {
        write_bytes(record, &record_words(&after));
        write_bytes(hist, &h);
        write_bytes(cand, &c);
        write_bytes(out, &o);
    }
    (code, sent, empties)
}
