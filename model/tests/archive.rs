//! The archive that the cabinets link against the model: the same answer and
//! every byte, on the generator's inputs.
#![allow(unsafe_code)]

use model::coverage::Coverage;
use model::gen::{odd_bytes, Inputs};
use model::input::{ByteInput, StepInput};
use model::rng::Rng;

const COUNT: usize = 200_000;
const SEED: u64 = 11;

#[link(name = "cabinet", kind = "static")]
extern "C" {
    fn zab_step(
        n: u8,
        room: u32,
        record: *mut u8,
        record_len: usize,
        hist: *mut u8,
        hist_len: usize,
        cand: *mut u8,
        cand_len: usize,
        event: u8,
        who: u8,
        value: u64,
        msg: *const u8,
        msg_len: usize,
        out: *mut u8,
        out_len: usize,
        told: *mut u8,
        told_len: usize,
    ) -> u8;
}

/// Numbers over the width of the host's types become its greatest, which is as
/// far out of range.
fn narrow(x: u64) -> u8 {
    u8::try_from(x).unwrap_or(u8::MAX)
}

/// What the host told apart from the answer where nothing was told.
const UNTOLD: [u8; 2] = [0xA5, 0x5A];

/// The archive's answer; the lent bytes are changed in place.
fn archive(input: &mut ByteInput) -> (u8, [u8; 2]) {
    let mut told = UNTOLD;
    // Each pointer comes with the length of the bytes that it points to, and
    // no two of them overlap.
    let code = unsafe {
        zab_step(
            narrow(input.n),
            u32::try_from(input.room).unwrap_or(u32::MAX),
            input.record.as_mut_ptr(),
            input.record.len(),
            input.hist.as_mut_ptr(),
            input.hist.len(),
            input.cand.as_mut_ptr(),
            input.cand.len(),
            narrow(input.event),
            narrow(input.who),
            input.value,
            input.msg.as_ptr(),
            input.msg.len(),
            input.out.as_mut_ptr(),
            input.out.len(),
            told.as_mut_ptr(),
            told.len(),
        )
    };
    (code, told)
}

/// Compares one input, answer and bytes; gives the number answered.
fn agree(input: &ByteInput) -> u32 {
    let (mut ours, mut theirs) = (input.clone(), input.clone());
    let (code, sent, empties) = ours.run();
    let answer = archive(&mut theirs);
    let told = match code {
        0 => [sent as u8, u8::from(empties)],
        _ => UNTOLD,
    };
    assert_eq!((u32::from(answer.0), answer.1), (code, told), "{input:?}");
    assert_eq!(theirs, ours, "{input:?}");
    code
}

#[test]
fn the_archive_answers_as_the_model() {
    let mut coverage = Coverage::default();
    for input in Inputs::new(SEED).take(COUNT) {
        agree(&input.bytes());
        coverage.note(&input, &input.run());
    }
    println!("{}", coverage.report());
    assert_eq!(coverage.missing(), Vec::<String>::new());
}

#[test]
fn odd_lengths_are_answered_alike() {
    let mut rng = Rng::new(SEED + 1);
    let mut codes = [0; 12];
    for input in Inputs::new(SEED + 1).take(COUNT / 4) {
        codes[agree(&odd_bytes(&mut rng, &input)) as usize] += 1;
    }
    assert!(codes[0] > 500 && codes[1] > 5_000, "{codes:?}");
}

#[test]
fn random_bytes_are_answered_alike() {
    let mut rng = Rng::new(SEED + 2);
    for input in Inputs::new(SEED + 2).take(COUNT / 4) {
        agree(&scrambled(&mut rng, &input));
    }
}

/// The input with one of its lent parts made of random bytes.
fn scrambled(rng: &mut Rng, input: &StepInput) -> ByteInput {
    let mut bytes = input.bytes();
    let part = match rng.below(5) {
        0 => &mut bytes.record,
        1 => &mut bytes.hist,
        2 => &mut bytes.cand,
        3 => &mut bytes.msg,
        _ => &mut bytes.out,
    };
    part.iter_mut()
        .for_each(|byte| *byte = rng.below(256) as u8);
    bytes
}
