//! The cluster's run in the archive.

use model::runs::Lot;

#[link(name = "cabinet", kind = "static")]
extern "C" {
    fn zab_run(
        held: *mut u64,
        held_len: usize,
        hists: *mut u64,
        hists_len: usize,
        cands: *mut u64,
        cands_len: usize,
        queue: *mut u64,
        queue_len: usize,
        out: *mut u64,
        out_len: usize,
        events: *const u64,
        events_len: usize,
        budget: usize,
    ) -> u8;
}

/// The archive's answer; the lent words are changed in place.
pub fn archive(lot: &mut Lot, events: &[u64], budget: usize) -> u8 {
    // Each pointer comes with the length of the words that it points to, and
    // no two of them overlap.
    unsafe {
        zab_run(
            lot.held.as_mut_ptr(),
            lot.held.len(),
            lot.hists.as_mut_ptr(),
            lot.hists.len(),
            lot.cands.as_mut_ptr(),
            lot.cands.len(),
            lot.queue.as_mut_ptr(),
            lot.queue.len(),
            lot.out.as_mut_ptr(),
            lot.out.len(),
            events.as_ptr(),
            events.len(),
            budget,
        )
    }
}
