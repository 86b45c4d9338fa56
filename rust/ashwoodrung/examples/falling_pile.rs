//! Replays a lesson in which a pile falls apart, and prints the islands after each comment of the lesson.
//!
//!     cargo run --example falling_pile [LESSON]

use std::error::Error;
use std::{env, fs};

use ashwoodrung::{Event, Rig};

const LESSON: &str = include_str!("../../../demos/06-a-pile-falls.txt");

fn main() -> Result<(), Box<dyn Error>> {
    let lesson = match env::args().nth(1) {
        Some(path) => fs::read_to_string(path)?,
        None => LESSON.into(),
    };
    let mut rig = Rig::new();
    let mut is_shown = true;
    for line in lesson.lines().filter(|line| !line.is_empty()) {
        if let Some(comment) = line.strip_prefix('#') {
            if !is_shown {
                show(&rig);
                is_shown = true;
            }
            println!("{}", comment.trim_start());
        } else if line != "dump" {
            let reply = line.parse::<Event>()?.apply(&mut rig);
            if reply.answer().is_refusal() {
                println!("  {line}: {}", reply.answer());
            }
            is_shown = false;
        }
    }
    if !is_shown {
        show(&rig);
    }
    Ok(())
}

fn show(rig: &Rig) {
    for island in rig.islands() {
        let slots = rig.bodies(island).into_iter().map(|body| body.slot.0.to_string());
        println!("  island {}: bodies {}", island.0, slots.collect::<Vec<_>>().join(" "));
    }
}
