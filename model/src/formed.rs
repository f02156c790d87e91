//! The well-formed rules of a server's record, one clause at a time.

use crate::message::{counters_given, epochs_within, rising, Tx};
use crate::server::{
    is_follower, is_leader, Server, Set, Sizes, F2, F3, F4, L1, L2, L3, L4, LOOK, SEATS, STAGES,
};

/// A clause: the paper's words and the test.
pub struct Clause {
    pub words: &'static str,
    pub holds: fn(Sizes, &Server) -> bool,
}

const fn clause(words: &'static str, holds: fn(Sizes, &Server) -> bool) -> Clause {
    Clause { words, holds }
}

pub const CLAUSES: [Clause; 29] = [
    clause("the server's own number is below n", own_number),
    clause("the stage is one of nine", |_, s| {
        usize::from(s.stage) < STAGES
    }),
    clause("a <= p", |_, s| s.a <= s.p),
    clause("d <= length", |_, s| s.d <= s.length()),
    clause("length <= H", |z, s| s.history.len() <= z.room()),
    clause("identifiers strictly rising", |_, s| rising(&s.history)),
    clause("epochs 1 to a", |_, s| epochs_within(&s.history, s.a)),
    clause("counters at least 1", |_, s| counters_given(&s.history)),
    clause("a = p in F3, F4, L3, L4", |_, s| {
        !matches!(s.stage, F3 | F4 | L3 | L4) || s.a == s.p
    }),
    clause("p at least 1 in F2 to F4 and L2 to L4", |_, s| {
        !matches!(s.stage, F2..=F4 | L2..=L4) || s.p >= 1
    }),
    clause("sets lie inside the servers", sets_inside),
    clause("a leader's joined holds itself", |_, s| {
        !is_leader(s.stage) || s.joined.get(usize::from(s.me)) == Some(&true)
    }),
    clause("a leader's joined contains its other sets", |_, s| {
        !is_leader(s.stage) || (contains(&s.joined, &s.acked) && contains(&s.joined, &s.synced))
    }),
    clause("acknowledged counts <= length", |_, s| {
        s.counts.iter().all(|count| *count <= s.length())
    }),
    clause("counts are 0 for servers not below n", |z, s| {
        s.counts[z.n()..].iter().all(|count| *count == 0)
    }),
    clause("largest seen >= p in L1", |_, s| {
        s.stage != L1 || s.largest >= s.p
    }),
    clause("the candidate's length <= H", |z, s| {
        s.candidate.len() <= z.room()
    }),
    clause("the candidate in L2 keeps the history rules", |_, s| {
        s.stage != L2 || keeps_rules(&s.candidate, s.cand_a)
    }),
    clause("the candidate's epoch in L2 is below p", |_, s| {
        s.stage != L2 || s.cand_a < s.p
    }),
    clause("joined lives in L1 to L4", |_, s| {
        is_leader(s.stage) || empty(&s.joined)
    }),
    clause("acked-epoch lives in L2", |_, s| {
        s.stage == L2 || empty(&s.acked)
    }),
    clause("synced lives in L3 and L4", |_, s| {
        matches!(s.stage, L3 | L4) || empty(&s.synced)
    }),
    clause("counts live in L3 and L4", |_, s| {
        matches!(s.stage, L3 | L4) || s.counts == [0; SEATS]
    }),
    clause("largest seen lives in L1", |_, s| {
        s.stage == L1 || s.largest == 0
    }),
    clause("the candidate's epoch lives in L2", |_, s| {
        s.stage == L2 || s.cand_a == 0
    }),
    clause("the candidate's history lives in L2", |_, s| {
        s.stage == L2 || s.candidate.is_empty()
    }),
    clause("a follower's oracle is another server", follower_oracle),
    clause("a leader's oracle is itself", |_, s| {
        !is_leader(s.stage) || usize::from(s.oracle) == usize::from(s.me) + 1
    }),
    clause("LOOK has no oracle", |_, s| {
        s.stage != LOOK || s.oracle == 0
    }),
];

/// Every clause holds.
pub fn well_formed(sizes: Sizes, server: &Server) -> bool {
    CLAUSES.iter().all(|clause| (clause.holds)(sizes, server))
}

/// The numbers of the clauses that do not hold.
pub fn broken(sizes: Sizes, server: &Server) -> Vec<usize> {
    (0..CLAUSES.len())
        .filter(|k| !(CLAUSES[*k].holds)(sizes, server))
        .collect()
}

fn own_number(sizes: Sizes, server: &Server) -> bool {
    usize::from(server.me) < sizes.n()
}

fn sets_inside(sizes: Sizes, server: &Server) -> bool {
    [&server.joined, &server.acked, &server.synced]
        .iter()
        .all(|set| set[sizes.n()..].iter().all(|member| !member))
}

fn follower_oracle(sizes: Sizes, server: &Server) -> bool {
    let oracle = usize::from(server.oracle);
    !is_follower(server.stage)
        || ((1..=sizes.n()).contains(&oracle) && oracle != usize::from(server.me) + 1)
}

fn keeps_rules(history: &[Tx], top: u32) -> bool {
    rising(history) && epochs_within(history, top) && counters_given(history)
}

fn contains(outer: &Set, inner: &Set) -> bool {
    (0..SEATS).all(|s| outer[s] || !inner[s])
}

fn empty(set: &Set) -> bool {
    set.iter().all(|member| !member)
}
