//! What a call costs, beside the Rust on the same input: `cost seconds` measures time, `cost instructions FILE` has the plugin of counter.c count what is executed and
//! reads its counts from FILE. Then comes a part of a name, if only the measurements that have it are wanted; after it the word `functions`, and the functions that
//! took most are listed. Both sides' results are held to each other, to the bit.
//!
//! The Rust can't remove, so beside a list of edits it builds the tree of as many points, or a tree after each edit. It has no records either: beside a sheet that is written or read is
//! what a host would do itself, which tests nothing.

mod input;
mod meter;
mod port;
mod rust;

use input::Input;
use meter::{Cost, Meter};
use std::process::ExitCode;

/// What a side did: what it cost, the bits of its result, and the nodes that it handed out or listed, where that is known.
pub struct Done {
    pub cost: Cost,
    pub bits: Vec<u64>,
    pub nodes: u64,
}

type Work = fn(&Input, &mut Meter) -> Done;

/// Whom the columns are of.
type Sides = [&'static str; 2];

const SIDES: Sides = ["the Rust", "Talemiku"];

/// A call on an input, by the Rust and by the archive.
struct Measurement {
    name: String,
    input: Input,
    sides: Sides,
    works: [Work; 2],
    /// Whether it takes so long that few rounds have to do.
    long: bool,
}

const CALLS: [(&str, Work, Work); 6] = [
    ("tree", rust::tree, port::tree),
    ("ManyBody", rust::many_body, port::many_body),
    ("Collide, radius 3", rust::collide, port::collide),
    ("Link, 2 links a point", rust::link, port::link),
    ("tick of all four", rust::tick, port::tick),
    ("300 ticks by step", rust::step, port::step),
];

fn measurement(call: usize, what: &str, input: Input) -> Measurement {
    let (name, rust, port) = CALLS[call];
    Measurement { name: format!("{what}: {name}"), input, sides: SIDES, works: [rust, port], long: name.ends_with("step") }
}

/// 4,096 edits, half of them removals, with so many points there at most.
fn edits(what: &str, input: Input, most: usize) -> Measurement {
    Measurement {
        name: format!("4,096 edits, {what}"),
        input: input.edited(most),
        sides: SIDES,
        works: [rust::tree_beside_edits, port::edits],
        long: false,
    }
}

/// The same beside a tree after each edit.
fn edits_at_each(sides: Sides, each: Work) -> Measurement {
    Measurement {
        name: "4,096 edits, beside a tree at each".to_string(),
        input: Input::uniform(4096).edited(1024),
        sides,
        works: [each, port::edits_for_each],
        long: true,
    }
}

/// A sheet, beside a host's own bytes.
fn records(what: &str, works: [Work; 2]) -> Measurement {
    Measurement {
        name: format!("4,096 records {what}"),
        input: Input::uniform(4096),
        sides: ["plain Rust", "Talemiku"],
        works,
        long: false,
    }
}

fn measurements() -> Vec<Measurement> {
    let mut all = Vec::new();
    for call in 0..CALLS.len() {
        all.push(measurement(call, "4,096 uniform points", Input::uniform(4096)));
    }
    for call in 0..3 {
        all.push(measurement(call, "4,096 coincident points", Input::coincident(4096)));
    }
    for call in [0, 1, 4] {
        for count in [256, 512, 1024, 2048] {
            all.push(measurement(call, &format!("{count} uniform points"), Input::uniform(count)));
        }
    }
    for most in [1024, 2048] {
        all.push(edits(&format!("uniform, {most} at a time"), Input::uniform(4096), most));
    }
    all.push(edits("coincident, 1024 at a time", Input::coincident(4096), 1024));
    all.push(edits("close pairs, 1024 at a time", Input::pairs(4096), 1024));
    all.push(edits_at_each(SIDES, rust::tree_at_each));
    all.push(edits_at_each(["tree at each", "edits"], port::tree_at_each));
    all.push(records("written", [rust::write, port::write]));
    all.push(records("read", [rust::read, port::read]));
    all
}

/// One round of both sides, whose results have to be the same.
fn once(m: &Measurement, meter: &mut Meter) -> Result<[Done; 2], String> {
    let both = m.works.map(|work| work(&m.input, meter));
    if both[0].bits == both[1].bits {
        Ok(both)
    } else {
        Err(format!("{}: the results differ", m.name))
    }
}

/// The least of several rounds, the two sides in turn.
fn measure(m: &Measurement, meter: &mut Meter) -> Result<[Done; 2], String> {
    let mut least = once(m, meter)?;
    for _ in 1..meter.rounds(m.long) {
        for (side, again) in least.iter_mut().zip(once(m, meter)?) {
            if again.cost.amount < side.cost.amount {
                *side = again;
            }
        }
    }
    Ok(least)
}

fn list_functions(side: &str, cost: &Cost) {
    println!("{side}:");
    for line in &cost.functions {
        println!("    {line}");
    }
}

fn run(meter: &mut Meter, wanted: &str, functions: bool) -> Result<(), String> {
    let mut above = None;
    for m in measurements().iter().filter(|m| m.name.contains(wanted)) {
        if above != Some(m.sides) {
            println!("{:<44} {:>11} {:>15} {:>15} {:>6}", "", "nodes", m.sides[0], m.sides[1], "ratio");
            above = Some(m.sides);
        }
        let [rust, port] = measure(m, meter)?;
        let ratio = port.cost.amount / rust.cost.amount;
        let digits = if ratio < 0.01 { 4 } else { 2 };
        println!(
            "{:<44} {:>11} {:>15} {:>15} {ratio:>6.digits$}",
            m.name,
            port.nodes,
            meter.written(&rust.cost),
            meter.written(&port.cost)
        );
        if functions {
            list_functions(m.sides[0], &rust.cost);
            list_functions(m.sides[1], &port.cost);
        }
    }
    Ok(())
}

fn main() -> ExitCode {
    let words: Vec<String> = std::env::args().skip(1).collect();
    let words: Vec<&str> = words.iter().map(String::as_str).collect();
    let (mut meter, rest) = match words[..] {
        ["seconds", ref rest @ ..] => (Meter::seconds(), rest),
        ["instructions", file, ref rest @ ..] => (Meter::instructions(file), rest),
        _ => {
            eprintln!("cost seconds | instructions FILE [PART-OF-A-NAME [functions]]");
            return ExitCode::from(2);
        }
    };
    match run(&mut meter, rest.first().unwrap_or(&""), rest.get(1) == Some(&"functions")) {
        Ok(()) => ExitCode::SUCCESS,
        Err(wrong) => {
            eprintln!("cost: {wrong}");
            ExitCode::from(1)
        }
    }
}
