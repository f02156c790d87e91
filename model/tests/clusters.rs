//! The cluster: the paper's script, calm recovery, dropped messages, room, and
//! random scripts.

use model::cluster::{Cluster, Event};
use model::formed::well_formed;
use model::gen;
use model::message::Message;
use model::rng::Rng;
use model::script;
use model::server::{Refusal, F4, L4};
use model::trace::{self, Record, Verdict};

fn oracle(s: u64, x: u64) -> Event {
    Event::Oracle { s, x }
}

fn deliver(from: u64, to: u64) -> Event {
    Event::Deliver { from, to }
}

/// Fresh servers, all told that server 0 leads.
fn told(n: u64, room: u64, depth: u64) -> Cluster {
    let mut cluster = Cluster::new(n, room, depth).unwrap();
    for s in 0..n {
        assert_eq!(cluster.apply(oracle(s, 0)), Ok(vec![]));
    }
    cluster
}

/// Delivers in random order until nothing waits; how many deliveries it took.
fn settle(cluster: &mut Cluster, rng: &mut Rng) -> u32 {
    let mut count = 0;
    while !cluster.waiting().is_empty() {
        let (from, to) = rng.pick(&cluster.waiting());
        cluster.apply(deliver(from as u64, to as u64)).unwrap();
        count += 1;
    }
    count
}

#[test]
fn the_papers_script() {
    let text = "N 3;O 0 0;O 1 0;O 2 0;D 1 0;D 0 1;D 1 0;D 0 1;D 1 0;S 0 40;D 0 1;D 0 1;\
                D 1 0;D 0 1;D 0 2;D 2 0;";
    let output = script::output_of(text.replace(';', "\n").as_bytes());
    let wanted = "TRC 1 3\nE 0 1\nB 0 1 1 40\nV 0 1 1 40\nV 1 1 1 40\nX 15 2\n";
    assert_eq!(String::from_utf8(output).unwrap(), wanted);
}

#[test]
fn calm_recovery_takes_six_deliveries_for_each_follower() {
    for seed in 0..200 {
        let mut rng = Rng::new(seed);
        for n in 3..=7 {
            let mut cluster = told(n, 4, 4);
            let count = settle(&mut cluster, &mut rng);
            assert_eq!(u64::from(count), 6 * (n - 1));
            assert_eq!(cluster.servers[0].stage, L4);
            assert!(cluster.servers[1..].iter().all(|s| s.stage == F4));
        }
    }
}

#[test]
fn submissions_are_delivered_everywhere() {
    let mut cluster = told(5, 8, 16);
    let mut rng = Rng::new(5);
    settle(&mut cluster, &mut rng);
    for v in 0..8 {
        assert!(cluster.apply(Event::Submit { s: 0, v }).is_ok());
    }
    let full = cluster.apply(Event::Submit { s: 0, v: 8 });
    assert_eq!(full, Err(Refusal::Full));
    settle(&mut cluster, &mut rng);
    assert!(cluster.servers.iter().all(|s| s.d == 8));
}

#[test]
fn a_refused_delivery_drops_its_message() {
    let mut cluster = told(3, 4, 2);
    // Server 0 restarts after server 1 has spoken anew: the message waits in LOOK.
    cluster.apply(Event::Restart { s: 0 }).unwrap();
    cluster.apply(oracle(1, 0)).unwrap();
    assert_eq!(cluster.waiting(), [(1, 0)]);
    assert_eq!(cluster.apply(deliver(1, 0)), Err(Refusal::Role));
    assert!(cluster.waiting().is_empty());
    assert_eq!(cluster.apply(deliver(1, 0)), Err(Refusal::Event));
}

#[test]
fn a_malformed_message_in_a_queue_is_message() {
    let mut cluster = told(3, 4, 2);
    cluster.channels[1][0][0] = Message::NewEpoch { e: 0 };
    let before = cluster.servers.clone();
    assert_eq!(cluster.apply(deliver(1, 0)), Err(Refusal::Message));
    assert!(cluster.channels[1][0].is_empty());
    assert_eq!(cluster.servers, before);
}

#[test]
fn room_leaves_the_cluster_as_it_was() {
    let mut cluster = told(3, 8, 2);
    settle(&mut cluster, &mut Rng::new(1));
    let submit = Event::Submit { s: 0, v: 1 };
    assert!(cluster.apply(submit).is_ok());
    assert!(cluster.apply(submit).is_ok());
    let before = cluster.clone();
    assert_eq!(cluster.apply(submit), Err(Refusal::Room));
    assert_eq!(cluster, before);
    // A delivery that has no room for its answer keeps its message.
    assert!(cluster.apply(deliver(0, 1)).is_ok());
    assert!(cluster.apply(deliver(0, 2)).is_ok());
    assert!(cluster.apply(submit).is_ok());
    let before = cluster.clone();
    assert_eq!(cluster.apply(deliver(1, 0)), Err(Refusal::Room));
    assert_eq!(cluster, before);
}

#[test]
fn an_oracle_event_counts_room_after_emptying() {
    let mut cluster = told(3, 8, 2);
    settle(&mut cluster, &mut Rng::new(1));
    for _ in 0..2 {
        cluster.apply(Event::Submit { s: 0, v: 1 }).unwrap();
    }
    assert_eq!(cluster.channels[0][1].len(), 2);
    assert_eq!(cluster.apply(oracle(0, 1)), Ok(vec![]));
    assert_eq!(cluster.waiting(), [(0, 1)]);
    assert!(cluster.channels[0][2].is_empty());
}

#[test]
fn a_damaged_server_is_state_for_every_event() {
    let mut cluster = told(3, 4, 2);
    cluster.servers[2].d = 1;
    let before = cluster.clone();
    for event in [oracle(0, 9), deliver(1, 0), Event::Restart { s: 0 }] {
        assert_eq!(cluster.apply(event), Err(Refusal::State));
        assert_eq!(cluster, before);
    }
}

#[test]
fn sizes_are_bounded() {
    for (n, room, depth, good) in [
        (3, 1, 2, true),
        (7, 64, 16, true),
        (2, 1, 2, false),
        (8, 1, 2, false),
        (3, 0, 2, false),
        (3, 65, 2, false),
        (3, 1, 1, false),
        (3, 1, 17, false),
    ] {
        assert_eq!(Cluster::new(n, room, depth).is_some(), good);
    }
}

/// The refusals of one script, and whether its trace is accepted.
fn refusals(text: &[u8]) -> Vec<u64> {
    let output = String::from_utf8(script::output_of(text)).unwrap();
    let Some((n, mut records)) = trace::parse(&output) else {
        assert_eq!(output, "X 1 1\n");
        return vec![];
    };
    records.truncate(trace::MOST);
    assert_eq!(trace::check(n, &records), Verdict::Yes, "{output}");
    let refusal = |record: &Record| match record {
        Record::X { refusal, .. } => Some(*refusal),
        _ => None,
    };
    records.iter().filter_map(refusal).collect()
}

/// From fresh servers no delivery is refused with GAP or UNDO, and every trace
/// is accepted.
#[test]
fn random_scripts_are_accepted() {
    let mut rng = Rng::new(11);
    let mut seen = [0; 14];
    for _ in 0..300 {
        let text = gen::script(&mut rng, 400);
        for refusal in refusals(&text) {
            seen[refusal as usize] += 1;
        }
    }
    println!("refusals {seen:?}");
    assert_eq!((seen[1], seen[3], seen[8], seen[9]), (0, 0, 0, 0));
    for refusal in [2, 4, 5, 6, 7, 10, 12] {
        assert!(seen[refusal] > 0, "refusal {refusal}");
    }
}

/// No event leaves a server that is not well formed or a channel over its
/// depth.
#[test]
fn clusters_stay_well_formed() {
    let mut rng = Rng::new(3);
    for _ in 0..100 {
        let mut cluster = told(rng.within(3, 7), rng.within(1, 6), rng.within(2, 5));
        for _ in 0..300 {
            random_event(&mut cluster, &mut rng);
            let (sizes, depth) = (cluster.sizes(), cluster.depth());
            assert!(cluster.servers.iter().all(|s| well_formed(sizes, s)));
            let mut channels = cluster.channels.iter().flatten();
            assert!(channels.all(|channel| channel.len() <= depth));
        }
    }
}

fn random_event(cluster: &mut Cluster, rng: &mut Rng) {
    let n = cluster.sizes().n() as u64;
    let (s, x) = (rng.below(n), rng.below(n));
    let _ = match rng.below(12) {
        0 => cluster.apply(oracle(s, x)),
        1 if rng.one_in(4) => cluster.apply(Event::Restart { s }),
        2 | 3 => cluster.apply(Event::Submit { s, v: x }),
        _ => cluster.apply(deliver(s, x)),
    };
}
