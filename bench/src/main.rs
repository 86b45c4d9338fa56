//! `bench [QUICK]`: times the Rust (the oracle's engine over the two files as they stand) and the static library on the same scripts, in one
//! run, and writes tables in Markdown.
//!
//! Each script is run whole by one, then by the other, five times over. A call's time is the clock's difference less what the clock itself
//! takes, and a kind's time is the median over its calls that did something, in the round where that is least. Before each call of the library one is made that only audits (flags of the absent
//! handle): the audit is its time, and the effect is the call's time less the audit's, pair by pair, with the error of its median. No
//! ratio is written for an effect that is less than two errors.

mod script;
mod split;

use std::collections::BTreeMap;
use std::env;
use std::hint::black_box;
use std::time::Instant;

use ashwoodrung::{Body, Event, Handle, Island, Rig};
use oracle::command::Command;
use oracle::engine::{Engine, Reply};
use script::Maker;

fn main() {
    let words: Vec<String> = env::args().skip(1).collect();
    if words.first().is_some_and(|word| word == "split") {
        return split::run(&words[1..]);
    }
    let is_quick = !words.is_empty();
    let shrink = if is_quick { 10 } else { 1 };
    let clock = clock();
    println!("Machine: {}. The clock takes {clock:.0} ns, which is taken off.\n", machine());

    println!("## Calls, in nanoseconds (medians)\n");
    println!("| bodies | call | n | the Rust | ours | of that the audit | effect | effect / the Rust |");
    println!("|---|---|---|---|---|---|---|---|");
    let mut audits = Vec::new();
    for (bodies, turns) in [(0, 2000), (64, 4000), (512, 2000), (4096, 800)] {
        let maker = script::piles(bodies, turns / shrink);
        audits.push((format!("{bodies} bodies in piles of 16"), table(bodies, &maker, clock)));
    }
    for (bodies, turns) in [(64, 200), (512, 60), (4096, 12)] {
        let maker = script::big_pile(bodies, (turns / shrink).max(2));
        audits.push((format!("{bodies} bodies in one pile"), table(bodies, &maker, clock)));
    }
    for joints in [64, 512, 4095] {
        audits.push((format!("24 bodies, {joints} joint links"), hunt(joints, clock)));
    }

    println!("\n## The audit, against a plain sum of the words in use\n");
    println!("| yard | words in use | audit, ns | ns a word | sum, word by word | audit / that | sum, by vectors | audit / that |");
    println!("|---|---|---|---|---|---|---|---|");
    for (yard, Audit { words, ns, sum, vectors }) in audits {
        let each = ns / words as f64;
        println!(
            "| {yard} | {words} | {ns:.0} | {each:.2} | {sum:.0} | {:.1} | {vectors:.0} | {:.1} |",
            ns / sum,
            ns / vectors
        );
    }
}

/// What an audit takes at the end of a script.
struct Audit {
    words: usize,
    ns: f64,
    /// One load and one addition a word.
    sum: f64,
    /// As the compiler likes it: eight words at once or so.
    vectors: f64,
}

/// How often each of the two runs a script, turn about. Of a kind the round that was disturbed least counts, by itself for each.
const ROUNDS: usize = 5;

fn table(bodies: u32, maker: &Maker, clock: f64) -> Audit {
    let mut rust = Vec::new();
    let mut ours = Vec::new();
    let mut rig = Rig::new();
    for _ in 0..ROUNDS {
        rust.push(time_rust(maker, clock));
        ours.push(time_ours(maker, &mut rig, clock));
    }
    for (rust, ours) in rust.iter().zip(&ours) {
        let mut pairs = rust.replies.iter().zip(&ours.replies);
        if let Some(at) = pairs.position(|(one, other)| one != other) {
            let line = maker.lines.get(at).map_or("the end", |line| &line.text);
            panic!(
                "{bodies} bodies, {line}: the Rust `{}`, ours `{}`",
                rust.replies[at], ours.replies[at]
            );
        }
        assert_eq!(rust.replies.len(), ours.replies.len(), "{bodies} bodies: islands at the end");
    }
    for kind in ours[0].kinds.keys() {
        let theirs = best(rust.iter().filter_map(|times| times.kinds.get(kind)));
        let times = best(ours.iter().filter_map(|times| times.kinds.get(kind)));
        let (Some(theirs), Some(times)) = (theirs, times) else {
            continue;
        };
        let (theirs, call) = (calls(theirs), calls(times));
        let audit = median(times.iter().map(|time| time.audit).collect());
        let effects: Vec<f64> = times.iter().map(|time| time.call - time.audit).collect();
        let (effect, error) = (median(effects.clone()), error(effects));
        let n = times.len();
        let ratio = match effect > 2.0 * error {
            true => format!("{:.1}", effect / theirs.max(1.0)),
            false => "-".into(),
        };
        println!("| {bodies} | {kind} | {n} | {theirs:.0} | {call:.0} | {audit:.0} | {effect:.0} ± {error:.0} | {ratio} |");
    }
    audit_of(rig, clock)
}

fn calls(times: &[Time]) -> f64 {
    median(times.iter().map(|time| time.call).collect())
}

/// The round with the least median.
fn best<'a>(rounds: impl Iterator<Item = &'a Vec<Time>>) -> Option<&'a Vec<Time>> {
    rounds.min_by(|one, other| calls(one).total_cmp(&calls(other)))
}

/// The time of one call, and of the audit before it.
struct Time {
    call: f64,
    audit: f64,
}

#[derive(Default)]
struct Times {
    kinds: BTreeMap<&'static str, Vec<Time>>,
    /// The answer lines, as a lesson has them, and at the end the islands with their bodies in list order.
    replies: Vec<String>,
}

impl Times {
    /// Keeps the time of a call that did something (or, in an empty yard, of any).
    fn keep(&mut self, kind: &'static str, reply: String, is_kept: bool, time: Time) {
        self.replies.push(reply);
        if is_kept {
            self.kinds.entry(kind).or_default().push(time);
        }
    }
}

fn time_rust(maker: &Maker, clock: f64) -> Times {
    let commands: Vec<Command> = maker
        .lines
        .iter()
        .map(|line| Command::parse(&line.text).unwrap().unwrap())
        .collect();
    let mut engine = Engine::default();
    let mut times = Times::default();
    for (number, command) in commands.iter().enumerate() {
        let start = Instant::now();
        let reply = black_box(engine.apply(command));
        let call = nanoseconds(start) - clock;
        let (answer, text) = match reply {
            Reply::Answer(answer) => (answer, answer.to_string()),
            Reply::Value(answer, value) => (answer, format!("{answer} {value}")),
            Reply::List(answer, list) => {
                let words: String = list.iter().map(|island| format!(" {island}")).collect();
                (answer, format!("{answer} {}{words}", list.len()))
            }
            other => panic!("{command}: {other:?}"),
        };
        let is_kept = is_timed(maker, number, u32::from(answer));
        times.keep(maker.lines[number].kind, text, is_kept, Time { call, audit: 0.0 });
    }
    let Reply::Text(dump) = engine.apply(&Command::Dump) else {
        panic!("no dump");
    };
    let mut island = String::new();
    for line in dump.lines() {
        let mut words = line.split_whitespace();
        match words.next() {
            Some("island") => island = words.next().unwrap_or_default().into(),
            Some("bodies") => times
                .replies
                .push(format!("{island}: {}", words.collect::<Vec<_>>().join(" "))),
            _ => (),
        }
    }
    times
}

fn time_ours(maker: &Maker, rig: &mut Rig, clock: f64) -> Times {
    let events: Vec<Event> = maker.lines.iter().map(|line| line.text.parse().unwrap()).collect();
    assert_eq!(rig.reset().number(), 0);
    let mut out = vec![Island(0); ashwoodrung::ISLANDS as usize];
    let mut times = Times::default();
    for (number, event) in events.iter().enumerate() {
        let is_built = number >= maker.built;
        let is_audited = is_built && *event != Event::Reset;
        let audit = if is_audited { audit(rig, clock) } else { 0.0 };
        let start = Instant::now();
        let reply = match event {
            Event::Finish(_) => Done::Listed(rig.finish_into(&mut out).map(<[Island]>::len)),
            event => Done::Replied(black_box(event.apply(rig))),
        };
        let call = nanoseconds(start) - clock;
        let (answer, text) = match reply {
            Done::Replied(reply) => (reply.answer().number(), reply.to_string()),
            Done::Listed(Err(refused)) => (refused.0.number(), format!("{} 0", refused.0.number())),
            Done::Listed(Ok(length)) => {
                let list: String = out[..length].iter().map(|island| format!(" {}", island.0)).collect();
                (0, format!("0 {length}{list}"))
            }
        };
        let is_kept = is_timed(maker, number, answer);
        times.keep(maker.lines[number].kind, text, is_kept, Time { call, audit });
    }
    for island in rig.islands() {
        let bodies = rig.bodies(island);
        let bodies = bodies.iter().map(|body| format!("{}:{}", body.slot.0, body.generation));
        times
            .replies
            .push(format!("{}: {}", island.0, bodies.collect::<Vec<_>>().join(" ")));
    }
    times
}

/// What a call of ours gave; a list is in the lent output.
enum Done {
    Replied(ashwoodrung::Reply),
    Listed(Result<usize, ashwoodrung::Refused>),
}

fn is_timed(maker: &Maker, number: usize, answer: u32) -> bool {
    number >= maker.built && (answer == 0 || maker.built == 0)
}

/// A call that changes nothing: it audits, and finds no body.
fn audit(rig: &mut Rig, clock: f64) -> f64 {
    let start = Instant::now();
    let answer = black_box(rig.flags(Handle::ABSENT, Body::new()));
    let ns = nanoseconds(start) - clock;
    assert_eq!(answer.number(), 1);
    ns
}

fn audit_of(mut rig: Rig, clock: f64) -> Audit {
    let ns = median((0..200).map(|_| audit(&mut rig, clock)).collect());
    let runs = in_use(rig.words());
    let words = rig.words();
    let time = |sum: &dyn Fn(&[u32]) -> u32| {
        let once = || {
            let start = Instant::now();
            black_box(
                runs.iter()
                    .map(|(from, to)| sum(&words[*from..*to]))
                    .fold(0, u32::wrapping_add),
            );
            nanoseconds(start) - clock
        };
        median((0..200).map(|_| once()).collect()).max(1.0)
    };
    Audit {
        words: runs.iter().map(|(from, to)| to - from).sum(),
        ns,
        sum: time(&sum),
        vectors: time(&sum_by_vectors),
    }
}

#[inline(never)]
fn sum(words: &[u32]) -> u32 {
    // SAFETY: a reference is read.
    let read = |word: &u32| unsafe { std::ptr::read_volatile(word) };
    words.iter().fold(0, |sum, word| sum.wrapping_add(read(word)))
}

#[inline(never)]
fn sum_by_vectors(words: &[u32]) -> u32 {
    words.iter().fold(0, |sum, word| sum.wrapping_add(*word))
}

/// Many joint links: the audit's hunt for doubled keys.
fn hunt(joints: u32, clock: f64) -> Audit {
    let mut rig = Rig::new();
    let body = |slot| Handle::new(ashwoodrung::Slot(slot), 0);
    for slot in 0..24 {
        assert_eq!(rig.put(body(slot), Body::new()).number(), 0);
        assert_eq!(rig.ensure(body(slot)).number(), 0);
    }
    let list: Vec<Handle> = (0..=joints).map(|k| body(k % 24)).collect();
    assert_eq!(rig.chain(1, &list).number(), 0);
    audit_of(rig, clock)
}

/// The words in use, as runs from one word to another (include/ashwoodrung.h).
fn in_use(words: &[u32]) -> Vec<(usize, usize)> {
    let [slots, islands, edges, joints, journal] = [0, 1, 2, 3, 4].map(|at| words[at] as usize);
    let runs = [
        (0, 9),
        (9, 5 * slots),
        (20_489, 4 * slots),
        (20_489 + 4 * 4_096, 2 * islands),
        (45_065, 3 * islands),
        (57_353, 4 * islands),
        (57_353 + 4 * 4_096, 2),
        (73_739, 4 * edges),
        (73_739 + 4 * 16_384, 2 * islands),
        (147_467, 4 * edges),
        (213_003, 4 * joints),
        (213_003 + 4 * 4_096, 2 * islands),
        (237_579, 8 * joints),
        (270_347, 4 * joints),
        (270_347 + 4 * 4_096, 2),
        (286_733, 4 * journal),
        (319_501, 4 * islands),
        (319_501 + 4 * 4_096, 2),
        (335_887, islands),
    ];
    runs.map(|(from, length)| (from, from + length)).to_vec()
}

fn nanoseconds(start: Instant) -> f64 {
    start.elapsed().as_nanos() as f64
}

fn median(mut list: Vec<f64>) -> f64 {
    list.sort_by(f64::total_cmp);
    list.get(list.len() / 2).copied().unwrap_or(f64::NAN)
}

/// The standard error of a median, from the median distance to it.
fn error(list: Vec<f64>) -> f64 {
    let (middle, n) = (median(list.clone()), list.len() as f64);
    let spread = 1.4826 * median(list.iter().map(|x| (x - middle).abs()).collect());
    1.2533 * spread / n.sqrt()
}

/// What a difference of the clock is where nothing lies between.
fn clock() -> f64 {
    median((0..10_000).map(|_| nanoseconds(black_box(Instant::now()))).collect())
}

fn machine() -> String {
    let info = std::fs::read_to_string("/proc/cpuinfo").unwrap_or_default();
    let model = info
        .lines()
        .find_map(|line| line.strip_prefix("model name")?.split_once(": "));
    let model = model.map_or("unknown processor", |(_, name)| name);
    let emulated = if cfg!(target_arch = "x86_64") {
        env::var("BENCH_NOTE").unwrap_or_default()
    } else {
        String::new()
    };
    format!("{model}, x86-64{emulated}")
}
