//! The scripts: lines of a lesson, each with the kind that its time is counted under. They are made with the Rust at hand, so that each
//! line does what its kind says.

use oracle::command::Command;
use oracle::engine::{Engine, Reply};

/// A line, and the kind of call that it is.
pub struct Line {
    pub kind: &'static str,
    pub text: String,
}

/// How many bodies stand in one pile.
const PILE: u32 = 16;

/// SplitMix64.
struct Random(u64);

impl Random {
    fn below(&mut self, end: u32) -> u32 {
        self.0 = self.0.wrapping_add(0x9e37_79b9_7f4a_7c15);
        let mut z = self.0;
        z = (z ^ (z >> 30)).wrapping_mul(0xbf58_476d_1ce4_e5b9);
        z = (z ^ (z >> 27)).wrapping_mul(0x94d0_49bb_1331_11eb);
        ((u128::from(z ^ (z >> 31)) * u128::from(end)) >> 64) as u32
    }
}

/// A contact: its edge number and its two bodies, by slot.
#[derive(Copy, Clone)]
struct Contact {
    edge: u32,
    first: u32,
    second: u32,
}

pub struct Maker {
    engine: Engine,
    random: Random,
    pub lines: Vec<Line>,
    generations: Vec<u32>,
    contacts: Vec<Contact>,
    /// How many lines build the yard, before what is timed.
    pub built: usize,
}

impl Maker {
    fn new(seed: u64) -> Self {
        Self {
            engine: Engine::default(),
            random: Random(seed),
            lines: Vec::new(),
            generations: Vec::new(),
            contacts: Vec::new(),
            built: 0,
        }
    }

    fn say(&mut self, kind: &'static str, text: String) -> Reply {
        let command = Command::parse(&text).expect("a line").expect("a command");
        let reply = self.engine.apply(&command);
        self.lines.push(Line { kind, text });
        reply
    }

    fn handle(&self, slot: u32) -> String {
        format!("{slot} {}", self.generations[slot as usize])
    }

    fn island_of(&mut self, slot: u32) -> u32 {
        let text = format!("island {}", self.handle(slot));
        let command = Command::parse(&text).expect("a line").expect("a command");
        match self.engine.apply(&command) {
            Reply::Value(0, island) => island,
            other => panic!("{text}: {other:?}"),
        }
    }

    fn body(&mut self) -> u32 {
        let slot = self.generations.len() as u32;
        self.generations.push(0);
        self.say("put", format!("put {slot} 0 0 1 0"));
        self.say("ensure", format!("ensure {slot} 0"));
        slot
    }

    fn link(&mut self, contact: Contact) {
        let (first, second) = (self.handle(contact.first), self.handle(contact.second));
        let is_merge = self.island_of(contact.first) != self.island_of(contact.second);
        let kind = if is_merge { "contact, merging" } else { "contact" };
        self.say(kind, format!("contact {} {first} {second}", contact.edge));
    }

    fn unlink(&mut self, contact: Contact) {
        self.say("uncontact", format!("uncontact {}", contact.edge));
    }

    fn touch(&mut self, first: u32, second: u32) {
        let edge = self.contacts.len() as u32;
        let contact = Contact { edge, first, second };
        self.contacts.push(contact);
        self.link(contact);
    }

    fn joint(&mut self, index: u32, first: u32, second: u32) {
        let (first, second) = (self.handle(first), self.handle(second));
        self.say("joint", format!("joint i {index} 0 {first} {second}"));
    }

    fn build_piles(&mut self, bodies: u32) {
        for _ in 0..bodies {
            self.body();
        }
        for base in (0..bodies).step_by(PILE as usize) {
            let end = (base + PILE).min(bodies);
            for apart in 1..=4 {
                for first in base..end.saturating_sub(apart) {
                    self.touch(first, first + apart);
                }
            }
            self.joint(base, base, end - 1);
        }
        self.built = self.lines.len();
    }

    /// The pile's contacts, as indices.
    fn of_pile(&self, base: u32) -> Vec<Contact> {
        let of = |contact: &&Contact| contact.first / PILE * PILE == base;
        self.contacts.iter().filter(of).copied().collect()
    }

    fn turn(&mut self, bodies: u32) {
        let slot = self.random.below(bodies);
        let base = slot / PILE * PILE;
        let pile = self.of_pile(base);
        let any = pile[self.random.below(pile.len() as u32) as usize];
        let (next, island) = (self.contacts.len() as u32, self.island_of(slot));
        match self.random.below(11) {
            0 => {
                let handle = self.handle(slot);
                self.say("flags", format!("flags {handle} 0 1 0"));
                self.say("island", format!("island {handle}"));
            }
            1 => {
                self.unlink(any);
                self.say("resolve", "resolve".into());
                self.say("maybid", format!("maybid {island}"));
                self.link(any);
            }
            2 => {
                self.say("unjoint", format!("unjoint i {base} 0"));
                self.say("resolve", "resolve".into());
                self.joint(base, base, base + PILE - 1);
            }
            3 => {
                // Out of its island and back into it.
                let handle = self.handle(slot);
                self.say("remove", format!("remove {handle}"));
                self.say("ensure", format!("ensure {handle}"));
                let other = if slot == base { base + 1 } else { base };
                let back = Contact {
                    edge: next,
                    first: other,
                    second: slot,
                };
                self.link(back);
                self.unlink(back);
                self.say("resolve", "resolve".into());
                self.say("renumber", format!("renumber {next} {next}"));
            }
            4 => {
                // Another body in the slot, with the same contacts.
                let handle = self.handle(slot);
                self.say("retire", format!("retire {handle}"));
                self.generations[slot as usize] += 1;
                let handle = self.handle(slot);
                self.say("put", format!("put {handle} 0 1 0"));
                self.say("ensure", format!("ensure {handle}"));
                for contact in pile.iter().filter(|one| one.first == slot || one.second == slot) {
                    self.unlink(*contact);
                    self.link(*contact);
                }
                if slot == base || slot == base + PILE - 1 {
                    self.say("unjoint", format!("unjoint i {base} 0"));
                    self.joint(base, base, base + PILE - 1);
                }
                self.say("resolve", "resolve".into());
            }
            5 => {
                // Five bodies cut off and joined again.
                let crosses = |one: &&Contact| one.first < base + 5 && one.second >= base + 5;
                let across: Vec<Contact> = pile.iter().filter(crosses).copied().collect();
                across.iter().for_each(|contact| self.unlink(*contact));
                self.say("unjoint", format!("unjoint i {base} 0"));
                self.say("resolve", "resolve".into());
                self.say("split, 5 of 16 cut off", format!("split {island}"));
                across.iter().for_each(|contact| self.link(*contact));
                self.joint(base, base, base + PILE - 1);
            }
            6 => {
                self.say("schedule", format!("schedule {island}"));
                self.say("run, 16 bodies in one", "run".into());
            }
            7 => {
                self.say("begin", "begin".into());
                for _ in 0..16 {
                    let slot = self.random.below(bodies);
                    let island = self.island_of(slot);
                    self.say("observe", format!("observe {island} 1"));
                }
                self.say("finish", "finish".into());
            }
            8 => {
                self.say("sleep", format!("sleep {island}"));
                self.say("wake", format!("wake {island}"));
            }
            9 => {
                let first = Contact {
                    edge: next,
                    first: base,
                    second: base + 1,
                };
                let second = Contact {
                    edge: next + 1,
                    first: base + 1,
                    second: base + 2,
                };
                self.link(first);
                self.link(second);
                self.unlink(first);
                self.say("renumber", format!("renumber {next} {}", next + 1));
                self.unlink(first);
                self.say("renumber", format!("renumber {next} {next}"));
                self.say("resolve", "resolve".into());
            }
            _ => {
                let list: Vec<String> = (0..8).map(|k| self.handle(base + k)).collect();
                self.say("chain of 8", format!("chain 7 8 {}", list.join(" ")));
                self.say("resolve", "resolve".into());
                self.say("chain of 0", "chain 7 0".into());
                self.say("resolve", "resolve".into());
            }
        }
    }
}

/// A yard of piles of 16 bodies, and calls on them. No body: calls that find nothing.
pub fn piles(bodies: u32, turns: u32) -> Maker {
    let mut maker = Maker::new(u64::from(bodies));
    maker.build_piles(bodies);
    for turn in 0..turns {
        if bodies > 0 {
            maker.turn(bodies);
        } else {
            for (kind, text) in [
                ("flags", "flags 0 0 0 1 0"),
                ("island", "island 0 0"),
                ("schedule", "schedule 0"),
                ("begin", "begin"),
                ("finish", "finish"),
            ] {
                maker.say(kind, text.into());
            }
            if turn % 4 == 0 {
                maker.say("reset", "reset".into());
            }
        }
    }
    maker
}

/// One pile of all bodies, in rows of 64, cut at two fifths and joined again.
pub fn big_pile(bodies: u32, turns: u32) -> Maker {
    let mut maker = Maker::new(u64::from(bodies));
    for _ in 0..bodies {
        maker.body();
    }
    for apart in [1, 64, 65] {
        for first in 0..bodies.saturating_sub(apart) {
            maker.touch(first, first + apart);
        }
    }
    maker.built = maker.lines.len();
    let cut = bodies * 2 / 5;
    let crosses = |one: &&Contact| one.first < cut && one.second >= cut;
    let across: Vec<Contact> = maker.contacts.iter().filter(crosses).copied().collect();
    for _ in 0..turns {
        let island = maker.island_of(bodies - 1);
        maker.say("big split, one part", format!("split {island}"));
        across.iter().for_each(|contact| maker.unlink(*contact));
        maker.say("resolve", "resolve".into());
        let island = maker.island_of(bodies - 1);
        maker.say("big split, two parts", format!("split {island}"));
        let (first, rest) = across.split_first().expect("a contact across");
        let (one, other) = (maker.handle(first.first), maker.handle(first.second));
        maker.say("big merge", format!("contact {} {one} {other}", first.edge));
        rest.iter().for_each(|contact| maker.link(*contact));
    }
    maker
}

/// One pile with so many contacts, between near bodies; with `is_cut` those between its two halves are unlinked and the resolver has run,
/// so that a split has two parts to find. Gives the island's number too.
pub fn one_island(bodies: u32, links: u32, is_cut: bool) -> (Maker, u32) {
    let mut maker = Maker::new(1);
    for _ in 0..bodies {
        maker.body();
    }
    let near = (1..bodies).flat_map(|apart| (0..bodies - apart).map(move |first| (first, first + apart)));
    for (first, second) in near.take(links as usize) {
        maker.touch(first, second);
    }
    if is_cut {
        let half = bodies / 2;
        let across = |one: &Contact| one.first < half && one.second >= half;
        for contact in maker.contacts.clone().into_iter().filter(across) {
            maker.unlink(contact);
        }
        maker.say("resolve", "resolve".into());
    }
    let island = maker.island_of(0);
    (maker, island)
}
