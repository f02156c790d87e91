//! The cluster's run in the archive against the model's, on the same words:
//! every answer and every word that is lent.
#![allow(unsafe_code)]

mod common;

use common::archive;
use model::aims::{script, Aim, CODES};
use model::rng::Rng;
use model::runs::{Lot, Site, PLACE_DEPTH, PLACE_MET, PLACE_TAKEN};

const EVENTS: u64 = 4_000_000;
const SEED: u64 = 23;

/// How many runs a cluster lives.
const RUNS: usize = 24;

/// Runs both; the words afterwards, where both agree.
fn agree(lot: &Lot, events: &[u64], budget: usize) -> (u8, Lot) {
    let (mut ours, mut theirs) = (lot.clone(), lot.clone());
    let code = ours.run(events, budget);
    let answer = archive(&mut theirs, events, budget);
    assert_eq!(answer, code, "{lot:?} {events:?} {budget}");
    assert!(
        theirs == ours,
        "{lot:?} {events:?} {budget}: {}",
        places(&ours, &theirs)
    );
    assert!(code == 0 || ours == *lot, "a refusal wrote: {lot:?}");
    (code, ours)
}

/// Where the words differ.
fn places(ours: &Lot, theirs: &Lot) -> String {
    let pairs = [
        ("held", &ours.held, &theirs.held),
        ("hists", &ours.hists, &theirs.hists),
        ("cands", &ours.cands, &theirs.cands),
        ("queue", &ours.queue, &theirs.queue),
        ("out", &ours.out, &theirs.out),
    ];
    let differ = |(name, a, b): &(&str, &Vec<u64>, &Vec<u64>)| {
        let at: Vec<usize> = (0..a.len()).filter(|k| a[*k] != b[*k]).collect();
        (!at.is_empty()).then(|| format!("{name} {at:?}"))
    };
    pairs
        .iter()
        .filter_map(differ)
        .collect::<Vec<_>>()
        .join(", ")
}

/// Some words damaged: the queue's, or any of the struct's, or a length.
fn damage(rng: &mut Rng, lot: &mut Lot) {
    let odd = [0, 1, 2, 9, 255, 256, u64::from(u32::MAX), 1 << 32, u64::MAX];
    let word = match rng.one_in(2) {
        true => rng.pick(&odd),
        false => rng.below(8),
    };
    let part = match rng.below(12) {
        0..4 => &mut lot.queue,
        4..9 => &mut lot.held,
        9 => &mut lot.hists,
        10 => &mut lot.cands,
        _ => &mut lot.out,
    };
    let at = rng.index(part.len());
    match rng.below(12) {
        0 => part.push(word),
        1 => {
            part.pop();
        }
        _ => part[at] = word,
    }
}

/// What was seen: events met and taken, runs, runs refused, runs on damaged
/// words, deliveries by a server, and the answers in the scripts as made.
#[derive(Default)]
struct Seen {
    met: u64,
    taken: u64,
    runs: u64,
    refused: u64,
    damaged: u64,
    delivered: u64,
    codes: [u64; CODES],
}

impl Seen {
    fn note(&mut self, code: u8, lot: &Lot) {
        self.runs += 1;
        if code != 0 {
            self.refused += 1;
            return;
        }
        self.met += lot.held[PLACE_MET];
        self.taken += lot.held[PLACE_TAKEN];
    }
}

fn delivered(lot: &Lot) -> u64 {
    let mut copy = lot.clone();
    let site = Site::read(&mut copy).expect("what a run leaves is well formed");
    site.servers.iter().map(|s| u64::from(s.d)).sum()
}

/// One cluster through some runs, one in four of them on damaged words. What
/// cannot be used any more is put back as it was.
fn live(rng: &mut Rng, seen: &mut Seen) {
    let n = rng.within(3, 7) as usize;
    let room = rng.pick(&[1, 2, 16, 64]);
    let depth = rng.pick(&[2, 4, 16]);
    let mut lot = Lot::fresh(n, room, depth);
    let mut aim = Aim::new(rng, n as u64);
    for _ in 0..RUNS {
        let mut given = lot.clone();
        let hurt = rng.one_in(4);
        if hurt {
            seen.damaged += 1;
            (0..rng.within(1, 3)).for_each(|_| damage(rng, &mut given));
        }
        let length = rng.within(50, 200) as usize;
        let mut events = script(rng, &given, length, &mut aim);
        if rng.one_in(50) {
            events.push(rng.below(5));
        }
        let budget = match rng.one_in(5) {
            true => rng.index(length),
            false => rng.pick(&[length, length + 1, usize::MAX]),
        };
        let (code, after) = agree(&given, &events, budget);
        seen.note(code, &after);
        if code == 0 {
            lot = after;
        }
    }
    seen.delivered += delivered(&lot);
    (0..CODES).for_each(|code| seen.codes[code] += aim.codes[code]);
    assert_eq!(lot.held[PLACE_DEPTH], depth as u64);
}

#[test]
fn the_archive_runs_as_the_model() {
    let mut rng = Rng::new(SEED);
    let mut seen = Seen::default();
    while seen.met < EVENTS {
        live(&mut rng, &mut seen);
    }
    println!(
        "{} events, {} taken ({} in a hundred); {} runs, {} refused, {} on damaged words; {} delivered",
        seen.met,
        seen.taken,
        seen.taken * 100 / seen.met,
        seen.runs,
        seen.refused,
        seen.damaged,
        seen.delivered
    );
    println!("answers 0 to 12 in the scripts as made: {:?}", seen.codes);
    assert!(seen.codes[2..].iter().all(|count| *count > 0));
    assert!(seen.taken * 2 > seen.met && seen.refused > 1_000 && seen.delivered > 10_000);
}
