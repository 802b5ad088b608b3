//! Answers cases of the oracle's format by Talemiku's archive, through the crate of host/, and looks at every lent buffer: `port answer` reads cases,
//! a line each, and writes answers as the oracle does, or what is wrong with what a call left. `port kinds` names the kinds of case that the archive
//! can answer. `port grid KIND SIDE POINTS` writes every small sheet, `port large SEED KINDS` sheets of 4,096 particles and 8,192 links.
//! Stays within Rust 1.63, as host/ does.

#[path = "../oracle/case.rs"]
#[allow(dead_code)]
mod case;
#[path = "../../host/tests/fence/mod.rs"]
mod fence;
mod force;
mod grid;
mod large;
mod lent;
mod particles;
mod sheet;
mod tree;

use case::{Case, Force};
use lent::{refused, Layout, Line};
use std::io::{self, BufRead, BufWriter, Write};
use talemiku::raw;

/// The kinds of case that the archive can answer, forces by their letters.
const KINDS: &[&str] = &["floor", "root", "tree", "M", "C", "L", "E", "move", "tick", "step"];

fn floor(x: f64) -> Line {
    let answer = raw::floor(x);
    match answer.refusal.number {
        0 if answer.refusal.place == 0 => Ok(format!("ok {}", answer.value)),
        0 => Err("a place though nothing is refused".to_string()),
        _ if answer.value == 0 => Ok(refused(answer.refusal)),
        _ => Err(format!("a value with refusal {}", answer.refusal.number)),
    }
}

fn answer(line: &str) -> Line {
    let mut layout = Layout::of(line);
    match case::read(line).ok_or("unreadable")? {
        Case::Floor(x) => floor(x),
        Case::Root(x) => Ok(format!("ok {:016x}", raw::root(x.to_bits()))),
        Case::Tree { slots, particles } => tree::answer(slots, &particles, &mut layout),
        Case::Force { force: Force::Center { x, y, strength }, particles, .. } => particles::center(&particles, x, y, strength),
        Case::Move { decay, particles } => particles::apply_velocities(&particles, decay),
        Case::Force { slots, force, alpha, particles, draws } => force::answer(slots, &force, alpha, &particles, &draws, &mut layout),
        Case::Tick(tick) => sheet::tick(&tick, &mut layout),
        Case::Step { tick, min, budget } => sheet::step(&tick, min, budget, &mut layout),
        _ => Err("no such entry".to_string()),
    }
}

fn main() -> io::Result<()> {
    let words: Vec<String> = std::env::args().skip(1).collect();
    let words: Vec<&str> = words.iter().map(String::as_str).collect();
    let number = |word: &str| word.parse::<usize>().expect("a number");
    let mut out = BufWriter::new(io::stdout().lock());
    match words[..] {
        ["kinds"] => writeln!(out, "{}", KINDS.join(","))?,
        ["answer"] => {
            for line in io::stdin().lock().lines() {
                writeln!(out, "{}", answer(&line?).unwrap_or_else(|wrong| format!("wrong: {wrong}")))?;
            }
        }
        ["grid", kind, side, points] => grid::write(&mut out, kind, number(side), number(points))?,
        ["large", seed, kinds] => large::write(&mut out, number(seed) as u64, kinds)?,
        _ => {
            eprintln!("port answer | kinds | grid KIND SIDE POINTS | large SEED KINDS");
            std::process::exit(2)
        }
    }
    out.flush()
}
