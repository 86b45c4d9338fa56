//! The static library's functions, as include/ashwoodrung.h declares them. Each is safe with any contents of its slices and any
//! numbers: it asks only for slices that do not overlap, which references give.

extern "C" {
    pub fn ashwoodrung_reset(t: *mut u32, n: usize) -> u32;
    pub fn ashwoodrung_put(t: *mut u32, n: usize, slot: u32, generation: u32, fixed: u32, enabled: u32, sleeping: u32) -> u32;
    pub fn ashwoodrung_flags(t: *mut u32, n: usize, slot: u32, generation: u32, fixed: u32, enabled: u32, sleeping: u32) -> u32;
    pub fn ashwoodrung_retire(t: *mut u32, n: usize, slot: u32, generation: u32) -> u32;
    pub fn ashwoodrung_island(t: *const u32, n: usize, slot: u32, generation: u32) -> u64;
    pub fn ashwoodrung_ensure(t: *mut u32, n: usize, slot: u32, generation: u32) -> u32;
    pub fn ashwoodrung_remove(t: *mut u32, n: usize, slot: u32, generation: u32) -> u32;
    pub fn ashwoodrung_contact(t: *mut u32, n: usize, edge: u32, slot1: u32, generation1: u32, slot2: u32, generation2: u32)
        -> u32;
    pub fn ashwoodrung_uncontact(t: *mut u32, n: usize, edge: u32) -> u32;
    pub fn ashwoodrung_renumber(t: *mut u32, n: usize, removed: u32, last: u32) -> u32;
    pub fn ashwoodrung_joint_impulse(
        t: *mut u32,
        n: usize,
        index: u32,
        generation: u32,
        slot1: u32,
        generation1: u32,
        slot2: u32,
        generation2: u32,
    ) -> u32;
    pub fn ashwoodrung_joint_chain(
        t: *mut u32,
        n: usize,
        multibody: u64,
        ordinal: u32,
        slot1: u32,
        generation1: u32,
        slot2: u32,
        generation2: u32,
    ) -> u32;
    pub fn ashwoodrung_unjoint_impulse(t: *mut u32, n: usize, index: u32, generation: u32) -> u32;
    pub fn ashwoodrung_unjoint_chain(t: *mut u32, n: usize, multibody: u64, ordinal: u32) -> u32;
    pub fn ashwoodrung_chain(t: *mut u32, n: usize, multibody: u64, list: *const u32, words: usize) -> u32;
    pub fn ashwoodrung_resolve(t: *mut u32, n: usize) -> u32;
    pub fn ashwoodrung_split(t: *mut u32, n: usize, island: u32) -> u32;
    pub fn ashwoodrung_schedule(t: *mut u32, n: usize, island: u32) -> u32;
    pub fn ashwoodrung_run(t: *mut u32, n: usize) -> u32;
    pub fn ashwoodrung_may_bid(t: *const u32, n: usize, island: u32) -> u64;
    pub fn ashwoodrung_begin(t: *mut u32, n: usize) -> u32;
    pub fn ashwoodrung_observe(t: *mut u32, n: usize, island: u32, eligible: u32) -> u32;
    pub fn ashwoodrung_finish(t: *mut u32, n: usize, out: *mut u32, room: usize) -> u64;
    pub fn ashwoodrung_sleep(t: *mut u32, n: usize, island: u32) -> u32;
    pub fn ashwoodrung_wake(t: *mut u32, n: usize, island: u32) -> u32;
}
