//! The calls.

use crate::kinds::{Answer, Body, Edge, Handle, Island, JointKey, Refused, Slot, NONE};
use crate::{ffi, ISLANDS, SLOTS, WORDS};

/// Where the islands' lists of bodies lie: 4 words a slot (island, place, and two neighbours), then 2 an island (count and last).
const MEMBERS: usize = 20_489;
const COUNTS: usize = MEMBERS + 4 * SLOTS as usize;

/// The tables, and the calls on them. `T` owns the words or borrows them.
#[derive(Clone, Debug, PartialEq, Eq)]
pub struct Rig<T = Box<[u32]>> {
    words: T,
}

impl Rig {
    /// A rig with tables of its own, empty.
    pub fn new() -> Self {
        let mut rig = Self::over(vec![0; WORDS].into_boxed_slice());
        let answer = rig.reset();
        debug_assert_eq!(answer, Answer::Done);
        rig
    }
}

impl Default for Rig {
    fn default() -> Self {
        Self::new()
    }
}

/// Makes a call on the tables, as pointer and length.
macro_rules! call {
    ($rig:expr, $name:ident $(, $word:expr)*) => {{
        let words = $rig.words.as_mut();
        // SAFETY: the words are lent whole, for this call; the library is safe with any contents and any numbers.
        Answer::from_number(unsafe { ffi::$name(words.as_mut_ptr(), words.len() $(, $word)*) })
    }};
}

/// An answer in the high half of a number, and the value in the low half.
fn apart(both: u64) -> (Answer, u32) {
    (Answer::from_number((both >> 32) as u32), both as u32)
}

impl<T: AsRef<[u32]>> Rig<T> {
    /// A rig over words that were used before, or are reset next. There are [`WORDS`] of them; any others are refused by every call.
    pub fn over(words: T) -> Self {
        Self { words }
    }

    /// The words back.
    pub fn into_words(self) -> T {
        self.words
    }

    /// The words: a copy of them is a copy of the state.
    pub fn words(&self) -> &[u32] {
        self.words.as_ref()
    }

    /// A body's island; none for a body in no island, and for a handle that names no live body.
    pub fn island(&self, body: Handle) -> Result<Option<Island>, Refused> {
        let words = self.words();
        // SAFETY: as in `call`; the library does not write these words.
        let both = unsafe { ffi::ashwoodrung_island(words.as_ptr(), words.len(), body.slot.0, body.generation) };
        let (answer, island) = apart(both);
        answer.check()?;
        Ok((island != NONE).then_some(Island(island)))
    }

    /// May this island bid for a split: it is live, its removal count is not 0, and the stamp is at least its denial.
    pub fn may_bid(&self, island: Island) -> Result<bool, Refused> {
        let words = self.words();
        // SAFETY: as in `island`.
        let both = unsafe { ffi::ashwoodrung_may_bid(words.as_ptr(), words.len(), island.0) };
        let (answer, yes) = apart(both);
        answer.check()?;
        Ok(yes != 0)
    }

    /// The live islands, by rising number. Reads the words as they lie, without an audit.
    pub fn islands(&self) -> Vec<Island> {
        let words = self.words();
        let count = |island: u32| words.get(COUNTS + 2 * island as usize).copied();
        let used = words.get(1).map_or(0, |used| (*used).min(ISLANDS));
        let live = (0..used).filter(|island| count(*island).is_some_and(|count| count > 0));
        live.map(Island).collect()
    }

    /// The bodies of an island, in list order. Reads the words as they lie, without an audit.
    pub fn bodies(&self, island: Island) -> Vec<Handle> {
        let words = self.words();
        let used = words.first().map_or(0, |used| (*used).min(SLOTS));
        let home = |slot: u32| words.get(MEMBERS + 4 * slot as usize).copied();
        let place = |slot: u32| words.get(MEMBERS + 4 * slot as usize + 1).copied();
        let generation = |slot: u32| words.get(9 + 5 * slot as usize).copied().unwrap_or(NONE);
        let mut slots: Vec<u32> = (0..used).filter(|slot| home(*slot) == Some(island.0)).collect();
        slots.sort_by_key(|slot| place(*slot));
        let handle = |slot| Handle::new(Slot(slot), generation(slot));
        slots.into_iter().map(handle).collect()
    }
}

impl<T: AsRef<[u32]> + AsMut<[u32]>> Rig<T> {
    /// Empties the tables, whatever the words are. Refused for a wrong length only.
    pub fn reset(&mut self) -> Answer {
        call!(self, ashwoodrung_reset)
    }

    // ---- Bodies ----

    /// Puts a body into a slot. It is in no island yet.
    pub fn put(&mut self, body: Handle, flags: Body) -> Answer {
        let (slot, generation) = (body.slot.0, body.generation);
        let (fixed, enabled, sleeping) = numbers(flags);
        call!(self, ashwoodrung_put, slot, generation, fixed, enabled, sleeping)
    }

    /// Sets a body's flags anew. Touches no membership.
    pub fn flags(&mut self, body: Handle, flags: Body) -> Answer {
        let (slot, generation) = (body.slot.0, body.generation);
        let (fixed, enabled, sleeping) = numbers(flags);
        call!(self, ashwoodrung_flags, slot, generation, fixed, enabled, sleeping)
    }

    /// Takes a body out of its island, if it is in one, and out of its slot. Only later generations may use the slot again.
    pub fn retire(&mut self, body: Handle) -> Answer {
        call!(self, ashwoodrung_retire, body.slot.0, body.generation)
    }

    /// Gives a live, enabled, non-fixed body that is in no island an island of its own.
    pub fn ensure(&mut self, body: Handle) -> Answer {
        call!(self, ashwoodrung_ensure, body.slot.0, body.generation)
    }

    /// Takes a body out of its island. An emptied island drops its links and is freed.
    pub fn remove(&mut self, body: Handle) -> Answer {
        call!(self, ashwoodrung_remove, body.slot.0, body.generation)
    }

    // ---- Links ----

    /// Links a contact, merging the islands of its two bodies if they differ.
    pub fn contact(&mut self, edge: Edge, first: Handle, second: Handle) -> Answer {
        let (s1, g1) = (first.slot.0, first.generation);
        let (s2, g2) = (second.slot.0, second.generation);
        call!(self, ashwoodrung_contact, edge.0, s1, g1, s2, g2)
    }

    /// Unlinks a contact, and journals its removal, unless it joined a body to itself.
    pub fn uncontact(&mut self, edge: Edge) -> Answer {
        call!(self, ashwoodrung_uncontact, edge.0)
    }

    /// The edge `removed` is gone, and the edge `last` takes its number.
    pub fn renumber(&mut self, removed: Edge, last: Edge) -> Answer {
        call!(self, ashwoodrung_renumber, removed.0, last.0)
    }

    /// Links a joint, merging the islands of its two bodies if they differ.
    pub fn joint(&mut self, key: JointKey, first: Handle, second: Handle) -> Answer {
        let (s1, g1) = (first.slot.0, first.generation);
        let (s2, g2) = (second.slot.0, second.generation);
        match key {
            JointKey::Impulse { index, generation } => {
                call!(self, ashwoodrung_joint_impulse, index, generation, s1, g1, s2, g2)
            }
            JointKey::Chain { multibody, ordinal } => {
                call!(self, ashwoodrung_joint_chain, multibody, ordinal, s1, g1, s2, g2)
            }
        }
    }

    /// Unlinks a joint, and journals its removal, unless it joined a body to itself.
    pub fn unjoint(&mut self, key: JointKey) -> Answer {
        match key {
            JointKey::Impulse { index, generation } => {
                call!(self, ashwoodrung_unjoint_impulse, index, generation)
            }
            JointKey::Chain { multibody, ordinal } => {
                call!(self, ashwoodrung_unjoint_chain, multibody, ordinal)
            }
        }
    }

    /// Unlinks a multibody's chain, and links successive bodies of the list that are live, enabled and not fixed.
    pub fn chain(&mut self, multibody: u64, bodies: &[Handle]) -> Answer {
        let pairs = bodies.iter().flat_map(|body| [body.slot.0, body.generation]);
        let list: Vec<u32> = pairs.collect();
        call!(self, ashwoodrung_chain, multibody, list.as_ptr(), list.len())
    }

    /// Counts each journalled removal for the island that both its bodies are in now, if they share one, and empties the journal.
    pub fn resolve(&mut self) -> Answer {
        call!(self, ashwoodrung_resolve)
    }

    // ---- Splits ----

    /// Cuts an island into its connected parts.
    pub fn split(&mut self, island: Island) -> Answer {
        call!(self, ashwoodrung_split, island.0)
    }

    /// Notes an island to be split by [`Rig::run`].
    pub fn schedule(&mut self, island: Island) -> Answer {
        call!(self, ashwoodrung_schedule, island.0)
    }

    /// Runs the split that waits, if its island is live and awake.
    pub fn run(&mut self) -> Answer {
        call!(self, ashwoodrung_run)
    }

    // ---- Sleep ----

    /// Opens a sleep scan anew.
    pub fn begin(&mut self) -> Answer {
        call!(self, ashwoodrung_begin)
    }

    /// Observes an island in the open scan: may its body sleep.
    pub fn observe(&mut self, island: Island, is_eligible: bool) -> Answer {
        call!(self, ashwoodrung_observe, island.0, is_eligible.into())
    }

    /// Closes the scan, and writes the islands that may sleep to the front of `out`. Gives that front.
    pub fn finish_into<'a>(&mut self, out: &'a mut [Island]) -> Result<&'a [Island], Refused> {
        let words = self.words.as_mut();
        // SAFETY: as in `call`; an Island is a u32 by its layout, and any u32 is an Island.
        let both = unsafe {
            let room = out.as_mut_ptr().cast::<u32>();
            ffi::ashwoodrung_finish(words.as_mut_ptr(), words.len(), room, out.len())
        };
        let (answer, length) = apart(both);
        answer.check()?;
        Ok(&out[..length as usize])
    }

    /// Closes the scan, and gives the islands that may sleep.
    pub fn finish(&mut self) -> Result<Vec<Island>, Refused> {
        let mut out = vec![Island(NONE); ISLANDS as usize];
        let length = self.finish_into(&mut out)?.len();
        out.truncate(length);
        Ok(out)
    }

    /// Marks an island asleep, and clears a split of it that waits.
    pub fn sleep(&mut self, island: Island) -> Answer {
        call!(self, ashwoodrung_sleep, island.0)
    }

    /// Wakes an island.
    pub fn wake(&mut self, island: Island) -> Answer {
        call!(self, ashwoodrung_wake, island.0)
    }
}

fn numbers(flags: Body) -> (u32, u32, u32) {
    (flags.is_fixed.into(), flags.is_enabled.into(), flags.is_sleeping.into())
}
