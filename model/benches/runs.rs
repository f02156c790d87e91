//! How long the archive's run takes against the model's, on the same scripts:
//! five servers, room for 64 transactions, channels of depth 16.
#![allow(unsafe_code)]

#[path = "../tests/common/mod.rs"]
mod common;

use std::time::{Duration, Instant};

use common::archive;
use model::aims::{script, Aim};
use model::rng::Rng;
use model::runs::{Lot, PLACE_MET, PLACE_TAKEN};

const SERVERS: usize = 5;
const ROOM: usize = 64;
const DEPTH: usize = 16;
const EVENTS: usize = 400_000;
const ROUNDS: usize = 7;

/// Runs each script from a fresh cluster; the time of the runs alone, and the
/// words afterwards.
fn time(scripts: &[Vec<u64>], run: fn(&mut Lot, &[u64]) -> u8) -> (Duration, Vec<Lot>) {
    let fresh = Lot::fresh(SERVERS, ROOM, DEPTH);
    let mut lots = vec![fresh; scripts.len()];
    let start = Instant::now();
    for (lot, events) in lots.iter_mut().zip(scripts) {
        assert_eq!(run(lot, events), 0);
    }
    (start.elapsed(), lots)
}

fn ours(lot: &mut Lot, events: &[u64]) -> u8 {
    lot.run(events, usize::MAX)
}

fn theirs(lot: &mut Lot, events: &[u64]) -> u8 {
    archive(lot, events, usize::MAX)
}

fn compare(length: usize) {
    let mut rng = Rng::new(length as u64);
    let fresh = Lot::fresh(SERVERS, ROOM, DEPTH);
    let scripts: Vec<Vec<u64>> = (0..EVENTS / length)
        .map(|_| {
            let mut aim = Aim::new(&mut rng, SERVERS as u64);
            script(&mut rng, &fresh, length, &mut aim)
        })
        .collect();
    let (mut model, mut library) = (Duration::MAX, Duration::MAX);
    let (mut met, mut taken) = (0, 0);
    for _ in 0..ROUNDS {
        let (a, x) = time(&scripts, ours);
        let (b, y) = time(&scripts, theirs);
        assert!(x == y, "the two runs differ");
        (model, library) = (model.min(a), library.min(b));
        met = x.iter().map(|lot| lot.held[PLACE_MET]).sum();
        taken = x.iter().map(|lot| lot.held[PLACE_TAKEN]).sum();
    }
    let each = |time: Duration| time.as_nanos() as u64 / met;
    println!(
        "{} scripts of {length} events, {} in a hundred taken: library {} ns an event, model {} ns, ratio {:.2}",
        scripts.len(),
        taken * 100 / met,
        each(library),
        each(model),
        library.as_secs_f64() / model.as_secs_f64()
    );
}

fn main() {
    println!("n = {SERVERS}, H = {ROOM}, D = {DEPTH}; the best of {ROUNDS} rounds");
    println!("every lent word is cleared before each script; in a run both clear each slot that is taken or emptied, and nothing else");
    [1_000, 10_000, 100_000].into_iter().for_each(compare);
}
