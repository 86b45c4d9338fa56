//! `bench split SIDE BODIES LINKS PARTS TURNS FILE`: one program for the instruction counter (bench/instructions.sh), which takes the
//! difference of two runs. SIDE is
//!
//! - `words`: the yard is built by the library, and its words are written to FILE;
//! - `ours`: the words of FILE, and so many splits by the library;
//! - `audit`: the same, with calls that only audit;
//! - `rust`: the yard is built by the Rust, and split by it so many times.

use std::fs;
use std::hint::black_box;

use ashwoodrung::{Body, Event, Handle, Island, Rig};
use oracle::command::Command;
use oracle::engine::Engine;

use crate::script;

pub fn run(words: &[String]) {
    let [side, bodies, links, parts, turns, file] = words else {
        panic!("split SIDE BODIES LINKS PARTS TURNS FILE");
    };
    let number = |word: &String| word.parse().expect("a number");
    let (bodies, links, turns): (u32, u32, u32) = (number(bodies), number(links), number(turns));
    let (maker, island) = script::one_island(bodies, links, parts != "1");
    let lines = maker.lines.iter().map(|line| line.text.as_str());
    match side.as_str() {
        "words" => {
            let mut rig = Rig::new();
            for line in lines {
                line.parse::<Event>().expect("an event").apply(&mut rig);
            }
            let bytes: Vec<u8> = rig.words().iter().flat_map(|word| word.to_le_bytes()).collect();
            fs::write(file, bytes).expect("the file");
        }
        "rust" => {
            let mut engine = Engine::default();
            let command = |line: &str| Command::parse(line).expect("a line").expect("a command");
            for line in lines {
                engine.apply(&command(line));
            }
            let split = command(&format!("split {island}"));
            for _ in 0..turns {
                black_box(engine.apply(&split));
            }
        }
        side => {
            let bytes = fs::read(file).expect("the file");
            let words: Vec<u32> = bytes
                .chunks_exact(4)
                .map(|word| u32::from_le_bytes([word[0], word[1], word[2], word[3]]))
                .collect();
            let mut rig = Rig::over(words);
            for _ in 0..turns {
                let answer = match side {
                    "ours" => rig.split(Island(island)),
                    "audit" => rig.flags(Handle::ABSENT, Body::new()),
                    _ => panic!("no such side"),
                };
                assert!(black_box(answer.number()) < 2);
            }
        }
    }
}
