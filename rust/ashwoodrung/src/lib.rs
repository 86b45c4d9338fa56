//! Which bodies of a rig move together, and which may sleep: persistent islands over tables that the caller owns.
//!
//! The work is done by a static library whose every function is proved to meet its contract, to be safe and to end: this crate is
//! a thin, safe door to it. It has no dependencies, and its user needs no `unsafe`.
//!
//! # Linking
//!
//! The crate links `libashwoodrung.a`. Build it once with `tools/build.sh archive` in the repository (by `rt`, of Rattle's kit), which writes
//! `target/staticlib/libashwoodrung.a`; the build script looks there, or in the folder that the environment variable `ASHWOODRUNG_LIB` names.
//! The archive is for x86-64 Linux.
//!
//! # A first lesson
//!
//! Two crates on a fixed slab; they touch, and so they move as one island.
//!
//! ```
//! use ashwoodrung::{Answer, Body, Edge, Handle, Rig, Slot};
//!
//! let mut rig = Rig::new();
//! let [slab, lower, upper] = [0, 1, 2].map(|slot| Handle::new(Slot(slot), 0));
//! assert_eq!(rig.put(slab, Body::new().fixed()), Answer::Done);
//! for body in [lower, upper] {
//!     assert_eq!(rig.put(body, Body::new()), Answer::Done);
//!     assert_eq!(rig.ensure(body), Answer::Done);
//! }
//! assert_ne!(rig.island(lower), rig.island(upper));
//!
//! assert_eq!(rig.contact(Edge(0), lower, upper), Answer::Done);
//! assert_eq!(rig.contact(Edge(1), slab, lower), Answer::Done);
//! assert_eq!(rig.island(lower), rig.island(upper));
//! assert_eq!(rig.island(slab), Ok(None));
//! ```
//!
//! # Answers
//!
//! A call gives an [`Answer`]. Those above 1 are refusals and change nothing; [`Answer::check`] turns them into an error, for `?`:
//!
//! ```
//! use ashwoodrung::{Answer, Body, Handle, Refused, Rig, Slot};
//!
//! fn two_bodies(rig: &mut Rig) -> Result<(), Refused> {
//!     rig.put(Handle::new(Slot(7), 0), Body::new()).check()?;
//!     rig.put(Handle::new(Slot(7), 1), Body::new()).check()?;
//!     Ok(())
//! }
//!
//! let refused = two_bodies(&mut Rig::new()).unwrap_err();
//! assert_eq!(refused.0, Answer::SlotTaken);
//! ```
//!
//! # Tables of one's own
//!
//! The whole state is in [`WORDS`] words, which the rig owns or borrows. Words that were written by someone else are audited at every
//! call, and refused with [`Answer::BadTables`] where they are not well formed.
//!
//! ```
//! use ashwoodrung::{Answer, Handle, Rig, Slot, WORDS};
//!
//! let mut words = vec![0; WORDS];
//! let mut rig = Rig::over(&mut words[..]);
//! assert_eq!(rig.reset(), Answer::Done);
//! drop(rig);
//! words[1] = 5000; // more islands in use than there is room for
//! assert_eq!(Rig::over(&mut words[..]).ensure(Handle::new(Slot(0), 0)), Answer::BadTables);
//! ```

mod events;
mod ffi;
mod kinds;
mod rig;

pub use events::{BadLine, Event, Events, Reply, Stopped};
pub use kinds::{Answer, Body, Edge, Handle, Island, JointKey, Refused, Slot};
pub use rig::Rig;

/// How many 32-bit words the tables have.
pub const WORDS: usize = 339_983;

/// How many body slots there are.
pub const SLOTS: u32 = 4_096;

/// How many islands there may be.
pub const ISLANDS: u32 = 4_096;

/// How many edge numbers there are.
pub const EDGES: u32 = 16_384;

/// How many joint links there may be at once.
pub const JOINTS: u32 = 4_096;

/// How many removals may wait in the journal.
pub const JOURNAL: u32 = 8_192;
