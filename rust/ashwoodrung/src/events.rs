//! Calls as values: to build a list of them, to read them from a lesson's text, to apply them in order.

use std::error::Error;
use std::fmt;
use std::str::{FromStr, SplitAsciiWhitespace};

use crate::kinds::{Answer, Body, Edge, Handle, Island, JointKey, Refused, Slot, NONE};
use crate::rig::Rig;

/// One call. Its text is a line of a lesson (docs/LESSON-FORMAT.md), which [`str::parse`] reads.
#[derive(Clone, Debug, PartialEq, Eq)]
#[non_exhaustive]
pub enum Event {
    /// [`Rig::reset`]
    Reset,
    /// [`Rig::put`]
    Put(Handle, Body),
    /// [`Rig::flags`]
    Flags(Handle, Body),
    /// [`Rig::retire`]
    Retire(Handle),
    /// [`Rig::island`]
    Island(Handle),
    /// [`Rig::ensure`]
    Ensure(Handle),
    /// [`Rig::remove`]
    Remove(Handle),
    /// [`Rig::contact`]
    Contact(Edge, Handle, Handle),
    /// [`Rig::uncontact`]
    Uncontact(Edge),
    /// [`Rig::renumber`]
    Renumber {
        /// The edge that is gone.
        removed: Edge,
        /// The edge that takes its number.
        last: Edge,
    },
    /// [`Rig::joint`]
    Joint(JointKey, Handle, Handle),
    /// [`Rig::unjoint`]
    Unjoint(JointKey),
    /// [`Rig::chain`]
    Chain(u64, Vec<Handle>),
    /// [`Rig::resolve`]
    Resolve,
    /// [`Rig::split`]
    Split(Island),
    /// [`Rig::schedule`]
    Schedule(Island),
    /// [`Rig::run`]
    Run,
    /// [`Rig::may_bid`]
    MayBid(Island),
    /// [`Rig::begin`]
    Begin,
    /// [`Rig::observe`]
    Observe(Island, bool),
    /// [`Rig::finish`], with room for so many islands
    Finish(usize),
    /// [`Rig::sleep`]
    Sleep(Island),
    /// [`Rig::wake`]
    Wake(Island),
}

/// What an event gave: its answer, and the value that some calls give beside it. Its text is the lesson's answer line.
#[derive(Clone, Debug, PartialEq, Eq)]
pub enum Reply {
    /// An answer.
    Answer(Answer),
    /// A body's island.
    Island(Answer, Option<Island>),
    /// May an island bid.
    Bid(Answer, bool),
    /// The islands that may sleep.
    List(Answer, Vec<Island>),
}

impl Reply {
    /// The answer.
    pub fn answer(&self) -> Answer {
        match self {
            Self::Answer(answer) | Self::Island(answer, _) | Self::Bid(answer, _) | Self::List(answer, _) => *answer,
        }
    }
}

impl fmt::Display for Reply {
    fn fmt(&self, f: &mut fmt::Formatter<'_>) -> fmt::Result {
        write!(f, "{}", self.answer().number())?;
        match self {
            Self::Answer(_) => Ok(()),
            Self::Island(_, island) => write!(f, " {}", island.map_or(NONE, |island| island.0)),
            Self::Bid(_, yes) => write!(f, " {}", u32::from(*yes)),
            Self::List(_, list) => {
                write!(f, " {}", list.len())?;
                list.iter().try_for_each(|island| write!(f, " {}", island.0))
            }
        }
    }
}

impl Event {
    /// Makes the call.
    pub fn apply<T: AsRef<[u32]> + AsMut<[u32]>>(&self, rig: &mut Rig<T>) -> Reply {
        let answer = match *self {
            Self::Reset => rig.reset(),
            Self::Put(body, flags) => rig.put(body, flags),
            Self::Flags(body, flags) => rig.flags(body, flags),
            Self::Retire(body) => rig.retire(body),
            Self::Ensure(body) => rig.ensure(body),
            Self::Remove(body) => rig.remove(body),
            Self::Contact(edge, first, second) => rig.contact(edge, first, second),
            Self::Uncontact(edge) => rig.uncontact(edge),
            Self::Renumber { removed, last } => rig.renumber(removed, last),
            Self::Joint(key, first, second) => rig.joint(key, first, second),
            Self::Unjoint(key) => rig.unjoint(key),
            Self::Chain(multibody, ref bodies) => rig.chain(multibody, bodies),
            Self::Resolve => rig.resolve(),
            Self::Split(island) => rig.split(island),
            Self::Schedule(island) => rig.schedule(island),
            Self::Run => rig.run(),
            Self::Begin => rig.begin(),
            Self::Observe(island, is_eligible) => rig.observe(island, is_eligible),
            Self::Sleep(island) => rig.sleep(island),
            Self::Wake(island) => rig.wake(island),
            Self::Island(body) => {
                return match rig.island(body) {
                    Ok(island) => Reply::Island(Answer::Done, island),
                    Err(Refused(answer)) => Reply::Island(answer, None),
                }
            }
            Self::MayBid(island) => {
                return match rig.may_bid(island) {
                    Ok(yes) => Reply::Bid(Answer::Done, yes),
                    Err(Refused(answer)) => Reply::Bid(answer, false),
                }
            }
            Self::Finish(room) => {
                let mut out = vec![Island(NONE); room];
                return match rig.finish_into(&mut out) {
                    Ok(list) => Reply::List(Answer::Done, list.to_vec()),
                    Err(Refused(answer)) => Reply::List(answer, Vec::new()),
                };
            }
        };
        Reply::Answer(answer)
    }
}

/// A list of events, built one by one and applied in order.
///
/// ```
/// use ashwoodrung::{Answer, Body, Edge, Events, Handle, Island, Rig, Slot};
///
/// let [pallet, load] = [0, 1].map(|slot| Handle::new(Slot(slot), 0));
/// let mut rig = Rig::new();
/// let replies = Events::new()
///     .put(pallet, Body::new())
///     .put(load, Body::new().sleeping())
///     .ensure(pallet)
///     .ensure(load)
///     .contact(Edge(0), pallet, load)
///     .island(load)
///     .apply(&mut rig)?;
/// assert_eq!(replies.last().unwrap().to_string(), "0 0");
/// assert_eq!(rig.bodies(Island(0)), [pallet, load]);
///
/// // A refusal stops the list; what came before it has happened.
/// let stopped = Events::new().uncontact(Edge(0)).put(load, Body::new()).resolve();
/// let stopped = stopped.apply(&mut rig).unwrap_err();
/// assert_eq!((stopped.at, stopped.answer), (1, Answer::SlotTaken));
/// # Ok::<(), ashwoodrung::Stopped>(())
/// ```
#[derive(Clone, Debug, Default, PartialEq, Eq)]
#[must_use]
pub struct Events(Vec<Event>);

/// A list of events stopped at a refusal, which changed nothing; the events before it have happened.
#[derive(Copy, Clone, Debug, PartialEq, Eq)]
pub struct Stopped {
    /// Which event was refused, from 0.
    pub at: usize,
    /// Its answer.
    pub answer: Answer,
}

impl fmt::Display for Stopped {
    fn fmt(&self, f: &mut fmt::Formatter<'_>) -> fmt::Result {
        write!(f, "event {}: {}", self.at, Refused(self.answer))
    }
}

impl Error for Stopped {}

impl Events {
    /// No events.
    pub fn new() -> Self {
        Self::default()
    }

    /// One event more.
    pub fn event(mut self, event: Event) -> Self {
        self.0.push(event);
        self
    }

    /// The events so far.
    pub fn as_slice(&self) -> &[Event] {
        &self.0
    }

    /// Applies them in order, up to the first refusal.
    pub fn apply<T: AsRef<[u32]> + AsMut<[u32]>>(&self, rig: &mut Rig<T>) -> Result<Vec<Reply>, Stopped> {
        let mut replies = Vec::with_capacity(self.0.len());
        for (at, event) in self.0.iter().enumerate() {
            let reply = event.apply(rig);
            let answer = reply.answer();
            if answer.is_refusal() {
                return Err(Stopped { at, answer });
            }
            replies.push(reply);
        }
        Ok(replies)
    }

    /// Applies all of them in order, whatever each answers.
    pub fn apply_all<T: AsRef<[u32]> + AsMut<[u32]>>(&self, rig: &mut Rig<T>) -> Vec<Reply> {
        self.0.iter().map(|event| event.apply(rig)).collect()
    }
}

/// A method for each event.
macro_rules! builder {
    ($($(#[$doc:meta])* $name:ident($($word:ident: $kind:ty),*) = $event:expr;)*) => {
        impl Events {
            $($(#[$doc])* pub fn $name(self $(, $word: $kind)*) -> Self { self.event($event) })*
        }
    };
}

builder! {
    /// [`Rig::reset`]
    reset() = Event::Reset;
    /// [`Rig::put`]
    put(body: Handle, flags: Body) = Event::Put(body, flags);
    /// [`Rig::flags`]
    flags(body: Handle, flags: Body) = Event::Flags(body, flags);
    /// [`Rig::retire`]
    retire(body: Handle) = Event::Retire(body);
    /// [`Rig::island`]
    island(body: Handle) = Event::Island(body);
    /// [`Rig::ensure`]
    ensure(body: Handle) = Event::Ensure(body);
    /// [`Rig::remove`]
    remove(body: Handle) = Event::Remove(body);
    /// [`Rig::contact`]
    contact(edge: Edge, first: Handle, second: Handle) = Event::Contact(edge, first, second);
    /// [`Rig::uncontact`]
    uncontact(edge: Edge) = Event::Uncontact(edge);
    /// [`Rig::renumber`]
    renumber(removed: Edge, last: Edge) = Event::Renumber { removed, last };
    /// [`Rig::joint`]
    joint(key: JointKey, first: Handle, second: Handle) = Event::Joint(key, first, second);
    /// [`Rig::unjoint`]
    unjoint(key: JointKey) = Event::Unjoint(key);
    /// [`Rig::chain`]
    chain(multibody: u64, bodies: &[Handle]) = Event::Chain(multibody, bodies.to_vec());
    /// [`Rig::resolve`]
    resolve() = Event::Resolve;
    /// [`Rig::split`]
    split(island: Island) = Event::Split(island);
    /// [`Rig::schedule`]
    schedule(island: Island) = Event::Schedule(island);
    /// [`Rig::run`]
    run() = Event::Run;
    /// [`Rig::may_bid`]
    may_bid(island: Island) = Event::MayBid(island);
    /// [`Rig::begin`]
    begin() = Event::Begin;
    /// [`Rig::observe`]
    observe(island: Island, is_eligible: bool) = Event::Observe(island, is_eligible);
    /// [`Rig::finish`]
    finish() = Event::Finish(MOST_ROOM);
    /// [`Rig::sleep`]
    sleep(island: Island) = Event::Sleep(island);
    /// [`Rig::wake`]
    wake(island: Island) = Event::Wake(island);
}

impl FromIterator<Event> for Events {
    fn from_iter<I: IntoIterator<Item = Event>>(events: I) -> Self {
        Self(events.into_iter().collect())
    }
}

// ---- A lesson's lines ----

/// As many islands as there can be.
const MOST_ROOM: usize = crate::ISLANDS as usize;

/// A line that is no event.
#[derive(Clone, Debug, PartialEq, Eq)]
pub struct BadLine(pub String);

impl fmt::Display for BadLine {
    fn fmt(&self, f: &mut fmt::Formatter<'_>) -> fmt::Result {
        write!(f, "no event: {}", self.0)
    }
}

impl Error for BadLine {}

impl FromStr for Event {
    type Err = BadLine;

    fn from_str(line: &str) -> Result<Self, BadLine> {
        let mut words = Words(line.split_ascii_whitespace());
        let event = words.event();
        match event {
            Some(event) if words.0.next().is_none() => Ok(event),
            _ => Err(BadLine(line.into())),
        }
    }
}

/// The words of a line.
struct Words<'a>(SplitAsciiWhitespace<'a>);

impl Words<'_> {
    fn event(&mut self) -> Option<Event> {
        Some(match self.0.next()? {
            "reset" => Event::Reset,
            "put" => Event::Put(self.handle()?, self.body()?),
            "flags" => Event::Flags(self.handle()?, self.body()?),
            "retire" => Event::Retire(self.handle()?),
            "island" => Event::Island(self.handle()?),
            "ensure" => Event::Ensure(self.handle()?),
            "remove" => Event::Remove(self.handle()?),
            "contact" => Event::Contact(Edge(self.number()?), self.handle()?, self.handle()?),
            "uncontact" => Event::Uncontact(Edge(self.number()?)),
            "renumber" => Event::Renumber {
                removed: Edge(self.number()?),
                last: Edge(self.number()?),
            },
            "joint" => Event::Joint(self.key()?, self.handle()?, self.handle()?),
            "unjoint" => Event::Unjoint(self.key()?),
            "chain" => {
                let multibody = self.number()?;
                let count: u32 = self.number()?;
                let bodies = (0..count).map(|_| self.handle()).collect::<Option<_>>();
                Event::Chain(multibody, bodies?)
            }
            "resolve" => Event::Resolve,
            "split" => Event::Split(Island(self.number()?)),
            "schedule" => Event::Schedule(Island(self.number()?)),
            "run" => Event::Run,
            "maybid" => Event::MayBid(Island(self.number()?)),
            "begin" => Event::Begin,
            "observe" => Event::Observe(Island(self.number()?), self.flag()?),
            "finish" => match self.0.next() {
                None => Event::Finish(MOST_ROOM),
                Some(room) => Event::Finish(room.parse().ok().filter(|room| *room <= MOST_ROOM)?),
            },
            "sleep" => Event::Sleep(Island(self.number()?)),
            "wake" => Event::Wake(Island(self.number()?)),
            _ => return None,
        })
    }

    fn number<N: FromStr>(&mut self) -> Option<N> {
        self.0.next()?.parse().ok()
    }

    fn flag(&mut self) -> Option<bool> {
        match self.0.next()? {
            "0" => Some(false),
            "1" => Some(true),
            _ => None,
        }
    }

    fn handle(&mut self) -> Option<Handle> {
        Some(Handle::new(Slot(self.number()?), self.number()?))
    }

    fn body(&mut self) -> Option<Body> {
        Some(Body {
            is_fixed: self.flag()?,
            is_enabled: self.flag()?,
            is_sleeping: self.flag()?,
        })
    }

    fn key(&mut self) -> Option<JointKey> {
        match self.0.next()? {
            "i" => Some(JointKey::Impulse {
                index: self.number()?,
                generation: self.number()?,
            }),
            "c" => Some(JointKey::Chain {
                multibody: self.number()?,
                ordinal: self.number()?,
            }),
            _ => None,
        }
    }
}
