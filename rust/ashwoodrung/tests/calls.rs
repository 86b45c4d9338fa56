//! Each call once through the library, and the paper's sample runs A to H.

use ashwoodrung::{Answer, Body, Edge, Event, Events, Handle, Island, JointKey, Refused, Rig, Slot, WORDS};

fn body(slot: u32) -> Handle {
    Handle::new(Slot(slot), 0)
}

/// Bodies 0 to 3, each in an island of its own.
fn four() -> Rig {
    let mut rig = Rig::new();
    for slot in 0..4 {
        assert_eq!(rig.put(body(slot), Body::new()), Answer::Done);
        assert_eq!(rig.ensure(body(slot)), Answer::Done);
    }
    rig
}

/// The four in island 0, linked by contacts 0, 1 and 2.
fn joined() -> Rig {
    let mut rig = four();
    assert_eq!(rig.contact(Edge(0), body(0), body(1)), Answer::Done);
    assert_eq!(rig.contact(Edge(1), body(2), body(3)), Answer::Done);
    assert_eq!(rig.contact(Edge(2), body(1), body(2)), Answer::Done);
    rig
}

#[test]
fn samples_a_to_d() {
    let mut rig = four();
    assert_eq!(rig.islands(), [0, 1, 2, 3].map(Island));
    assert_eq!(rig.contact(Edge(0), body(0), body(1)), Answer::Done);
    assert_eq!(rig.islands(), [0, 2, 3].map(Island));
    assert_eq!(rig.contact(Edge(1), body(2), body(3)), Answer::Done);
    assert_eq!(rig.islands(), [0, 2].map(Island));
    assert_eq!(rig.contact(Edge(2), body(1), body(2)), Answer::Done);
    assert_eq!(rig.bodies(Island(0)), [0, 1, 2, 3].map(body));
    assert_eq!(rig.put(body(4), Body::new()), Answer::Done);
    assert_eq!(rig.ensure(body(4)), Answer::Done);
    assert_eq!(rig.island(body(4)), Ok(Some(Island(2))));
}

#[test]
fn samples_e_and_f() {
    let mut rig = joined();
    assert_eq!(rig.put(body(4), Body::new()), Answer::Done);
    assert_eq!(rig.ensure(body(4)), Answer::Done);
    assert_eq!(rig.uncontact(Edge(0)), Answer::Done);
    assert_eq!(rig.may_bid(Island(0)), Ok(false));
    assert_eq!(rig.resolve(), Answer::Done);
    assert_eq!(rig.may_bid(Island(0)), Ok(true));
    for _ in 0..5 {
        assert_eq!(rig.begin(), Answer::Done);
    }
    assert_eq!(rig.split(Island(0)), Answer::Done);
    assert_eq!(rig.bodies(Island(0)), [3, 1, 2].map(body));
    assert_eq!(rig.bodies(Island(3)), [body(0)]);
}

#[test]
fn samples_g_and_h() {
    let mut rig = joined();
    assert_eq!(rig.uncontact(Edge(0)), Answer::Done);
    assert_eq!(rig.renumber(Edge(0), Edge(5)), Answer::Nothing);
    assert_eq!(rig.renumber(Edge(3), Edge(2)), Answer::Nothing);
    assert_eq!(rig.renumber(Edge(1), Edge(2)), Answer::StillLinked);
    assert_eq!(rig.renumber(Edge(0), Edge(2)), Answer::Done);
    assert_eq!(rig.uncontact(Edge(0)), Answer::Done);
    assert_eq!(rig.uncontact(Edge(2)), Answer::Nothing);
}

#[test]
fn a_scan_puts_an_island_to_sleep() {
    let mut rig = joined();
    assert_eq!(rig.observe(Island(0), true), Answer::NoScan);
    assert_eq!(rig.begin(), Answer::Done);
    assert_eq!(rig.observe(Island(0), true), Answer::Done);
    assert_eq!(rig.observe(Island(9), true), Answer::NoIsland);
    assert_eq!(rig.finish_into(&mut []), Err(Refused(Answer::TooShort)));
    assert_eq!(rig.finish(), Ok(vec![Island(0)]));
    assert_eq!(rig.finish(), Err(Refused(Answer::NoScan)));
    assert_eq!(rig.sleep(Island(0)), Answer::Done);
    assert_eq!(rig.schedule(Island(0)), Answer::Done);
    assert_eq!(rig.run(), Answer::Nothing);
    assert_eq!(rig.wake(Island(0)), Answer::Done);
    assert_eq!(rig.wake(Island(1)), Answer::NoIsland);
}

#[test]
fn joints_and_chains() {
    let mut rig = four();
    let pin = JointKey::Impulse { index: 7, generation: 1 };
    let link = |ordinal| JointKey::Chain {
        multibody: u64::MAX,
        ordinal,
    };
    assert_eq!(rig.joint(pin, body(0), body(1)), Answer::Done);
    assert_eq!(rig.joint(pin, body(2), body(3)), Answer::Nothing);
    assert_eq!(rig.chain(u64::MAX, &[1, 2, 3].map(body)), Answer::Done);
    assert_eq!(rig.bodies(Island(0)), [0, 1, 2, 3].map(body));
    assert_eq!(rig.joint(link(1), body(0), body(1)), Answer::Nothing);
    assert_eq!(rig.unjoint(link(1)), Answer::Done);
    assert_eq!(rig.unjoint(link(2)), Answer::Nothing);
    assert_eq!(rig.unjoint(pin), Answer::Done);
    assert_eq!(rig.chain(u64::MAX, &[]), Answer::Done);
    assert_eq!(rig.unjoint(link(0)), Answer::Nothing);
}

#[test]
fn bodies_come_and_go() {
    let mut rig = four();
    assert_eq!(rig.flags(body(0), Body::new().disabled()), Answer::Done);
    assert_eq!(rig.flags(body(9), Body::new()), Answer::Nothing);
    assert_eq!(rig.remove(body(0)), Answer::Done);
    assert_eq!(rig.ensure(body(0)), Answer::Nothing);
    assert_eq!(rig.retire(body(1)), Answer::Done);
    assert_eq!(rig.put(body(1), Body::new()), Answer::BadGeneration);
    assert_eq!(rig.put(Handle::ABSENT, Body::new()), Answer::OverSize);
    assert_eq!(rig.island(Handle::ABSENT), Ok(None));
    assert_eq!(rig.islands(), [2, 3].map(Island));
    assert_eq!(rig.reset(), Answer::Done);
    assert!(rig.islands().is_empty());
}

#[test]
fn tables_are_borrowed_and_audited() {
    let mut words = vec![0xdead_beef; WORDS];
    let mut rig = Rig::over(&mut words[..]);
    assert_eq!(rig.ensure(body(0)), Answer::BadTables);
    assert_eq!(rig.island(body(0)), Err(Refused(Answer::BadTables)));
    assert_eq!(rig.reset(), Answer::Done);
    assert_eq!(rig.put(body(0), Body::new()), Answer::Done);
    let mut short = Rig::over(vec![0; WORDS - 1]);
    assert_eq!(short.reset(), Answer::BadTables);
    let mut none = Rig::over(Vec::new());
    assert_eq!(none.reset(), Answer::BadTables);
}

#[test]
fn a_lesson_is_replayed() {
    for demo in [
        "02-a-sling-is-lifted",
        "03-a-pallet-is-dropped",
        "04-a-chain-is-refreshed",
        "05-a-rig-falls-asleep",
    ] {
        let read = |end| std::fs::read_to_string(format!("../../demos/{demo}.{end}")).unwrap();
        let (lesson, answers) = (read("txt"), read("out"));
        let calls = lesson
            .lines()
            .filter(|line| !line.is_empty() && !line.starts_with('#') && *line != "dump");
        let events: Events = calls.map(|line| line.parse::<Event>().unwrap()).collect();
        let replies = events.apply_all(&mut Rig::new());
        // The blocks of the dumps are left out.
        let mut is_block = false;
        let mut expected = Vec::new();
        for line in answers.lines() {
            is_block |= line.starts_with("islands");
            if !is_block {
                expected.push(line.to_string());
            }
            is_block &= line != "end";
        }
        let replies: Vec<String> = replies.iter().map(ToString::to_string).collect();
        assert_eq!(replies, expected, "{demo}");
    }
}
