//! The program beside the Rust: answers cases by the Rust or by the rules, makes cases, and compares.

mod answer;
mod case;
mod gen;
#[path = "../random.rs"]
mod random;
mod refusal;
mod rule;
mod rust;
mod table;

use std::collections::BTreeMap;
use std::env::args;
use std::io::{self, BufRead, Write};
use std::process::ExitCode;

use case::{Case, FORCES, KINDS};
use rust::MinusZero;

const USAGE: &str = "oracle rust | raw | rule | table | gen SEED COUNT [MAX [KINDS]] | compare SEED COUNT [MAX [KINDS]]";

fn main() -> ExitCode {
    let words: Vec<String> = args().skip(1).collect();
    let done = match words.first().map(String::as_str) {
        Some("rust") => answer_all(|case| rust::answer(case, MinusZero::AsZero)),
        Some("raw") => answer_all(|case| rust::answer(case, MinusZero::AsItIs)),
        Some("rule") => answer_all(by_rule),
        Some("table") => Ok(table::run()),
        Some("gen") => with_plan(&words, generate),
        Some("compare") => with_plan(&words, compare),
        _ => usage(),
    };
    match done {
        Ok(true) => ExitCode::SUCCESS,
        Ok(false) => ExitCode::from(1),
        Err(error) => {
            eprintln!("oracle: {error}");
            ExitCode::from(2)
        }
    }
}

fn usage<A>() -> io::Result<A> {
    Err(io::Error::new(io::ErrorKind::InvalidInput, USAGE))
}

pub fn by_rule(case: &Case) -> String {
    answer::write(&rule::answer(case))
}

/// Answers the cases of the standard input, a line each; false if one could not be read.
fn answer_all(answer: impl Fn(&Case) -> String) -> io::Result<bool> {
    let mut out = io::BufWriter::new(io::stdout().lock());
    let mut all_read = true;
    for line in io::stdin().lock().lines() {
        match case::read(&line?) {
            Some(case) => writeln!(out, "{}", answer(&case))?,
            None => {
                all_read = false;
                writeln!(out, "unreadable")?;
            }
        }
    }
    out.flush()?;
    Ok(all_read)
}

/// What `gen` and `compare` are asked for.
struct Plan {
    seed: u64,
    count: u64,
    max: usize,
    kinds: Vec<String>,
}

fn plan(words: &[String]) -> Option<Plan> {
    let kinds: Vec<String> = match words.get(4) {
        None => KINDS.map(String::from).to_vec(),
        Some(list) => list.split(',').map(String::from).collect(),
    };
    if !kinds.iter().all(|kind| KINDS.contains(&kind.as_str()) || FORCES.contains(&kind.as_str())) {
        return None;
    }
    Some(Plan {
        seed: words.get(1)?.parse().ok()?,
        count: words.get(2)?.parse().ok()?,
        max: words.get(3).map_or(Some(40), |word| word.parse().ok())?,
        kinds,
    })
}

fn with_plan(words: &[String], work: impl Fn(&Plan) -> io::Result<bool>) -> io::Result<bool> {
    match plan(words) {
        Some(plan) => work(&plan),
        None => usage(),
    }
}

fn cases(plan: &Plan) -> impl Iterator<Item = String> + '_ {
    let mut random = random::Random::new(plan.seed);
    (0..plan.count).map(move |_| case::write(&gen::case(&mut random, plan.max, &plan.kinds)))
}

fn generate(plan: &Plan) -> io::Result<bool> {
    let mut out = io::BufWriter::new(io::stdout().lock());
    for line in cases(plan) {
        writeln!(out, "{line}")?;
    }
    out.flush()?;
    Ok(true)
}

/// Under which heading an answer is counted.
fn heading(kind: &str, answer: &str) -> String {
    let words: Vec<&str> = answer.split(' ').collect();
    match (words[0], kind) {
        ("refused", _) => format!("refused {}", words[1]),
        ("ok", "step") if words[6] != "0" => format!("stopped {}", words[6]),
        (first, _) => first.to_string(),
    }
}

fn compare(plan: &Plan) -> io::Result<bool> {
    let mut counts: BTreeMap<String, u64> = BTreeMap::new();
    let mut differ = 0;
    for line in cases(plan) {
        let case = case::read(&line).expect("a case that was written reads");
        let by_rust = rust::answer(&case, MinusZero::AsZero);
        let by_rule = by_rule(&case);
        if by_rust != by_rule {
            differ += 1;
            println!("case {line}\nrust {by_rust}\nrule {by_rule}");
        }
        let kind = line.split(' ').next().unwrap_or_default();
        *counts.entry(kind.to_string()).or_default() += 1;
        *counts.entry(heading(kind, &by_rule)).or_default() += 1;
    }
    let counts: Vec<String> = counts.iter().map(|(what, count)| format!("{what} {count}")).collect();
    println!("compared {}, differ {differ}: {}", plan.count, counts.join(", "));
    Ok(differ == 0)
}
