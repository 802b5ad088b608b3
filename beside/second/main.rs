//! Second readings of the requests: each is written from the words of document 02, not from the crates, and the archive's answers are held to its own, through the crate of host/.
//! The first word names the entry: `second edits every [MOST]`, `edits long`, `edits SEED COUNT MAX`, `records every`, `records SEED COUNT MAX`, `unwrap every`, `unwrap SEED COUNT MAX`. Status 0 where
//! nothing differs, 1 where something does, 2 for other words. `recenter TICKS` does what the program recenter has to do, and `recenter make FOLDER` and `recenter random SEED COUNT FOLDER` write what
//! beside/recentered holds that program to.
//! Stays within Rust 1.63, as host/ does.

mod edits;
#[path = "../../host/tests/fence/mod.rs"]
mod fence;
#[path = "../random.rs"]
mod random;
mod recenter;
mod records;
mod unwrap;

use random::Random;
use std::collections::BTreeMap;
use std::fmt::Display;
use std::process::exit;

/// Whether the archive answers all cases of an entry as its reading does: `both` gives the reading's answer to the case of a number, with the refusal's number, and the archive's.
/// The first that differs is told with both.
fn hold<C: Display, A: Display + PartialEq>(
    entry: &str,
    all: impl Iterator<Item = C>,
    mut both: impl FnMut(u64, &C) -> ((A, u64), Result<A, &'static str>),
) -> bool {
    let mut cases = 0;
    let mut numbers = BTreeMap::new();
    for case in all {
        cases += 1;
        let ((read, number), answer) = both(cases, &case);
        let told = match answer {
            Ok(answer) if answer == read => None,
            Ok(answer) => Some(answer.to_string()),
            Err(wrong) => Some(wrong.to_string()),
        };
        if let Some(told) = told {
            println!("case {cases}: {case}\nreading: {read}\narchive: {told}\n{cases} cases, 1 differ");
            return false;
        }
        *numbers.entry(number).or_insert(0) += 1;
    }
    let refused: String =
        numbers.iter().filter(|(&number, _)| number != 0).map(|(number, count)| format!(", refused {number}: {count}")).collect();
    println!("{entry}: {cases} cases, {} accepted{refused}\n{cases} cases, 0 differ", numbers.get(&0).unwrap_or(&0));
    true
}

/// COUNT random cases from SEED, each made by its number, from 1 on, and MAX; none for other words than these three.
fn random<'a, C>(words: &[&str], case: impl Fn(&mut Random, usize, usize) -> C + 'a) -> Option<impl Iterator<Item = C> + 'a> {
    let [seed, count, max] = <[&str; 3]>::try_from(words).ok()?;
    let mut random = Random::new(seed.parse().ok()?);
    let count: usize = count.parse().ok()?;
    let max = max.parse().ok()?;
    Some((1..=count).map(move |number| case(&mut random, number, max)))
}

fn main() {
    let words: Vec<String> = std::env::args().skip(1).collect();
    let words: Vec<&str> = words.iter().map(String::as_str).collect();
    let agrees = match words.split_first() {
        Some((&"edits", rest)) => edits::run(rest),
        Some((&"recenter", rest)) => recenter::run(rest),
        Some((&"records", rest)) => records::run(rest),
        Some((&"unwrap", rest)) => unwrap::run(rest),
        _ => None,
    };
    match agrees {
        Some(true) => {}
        Some(false) => exit(1),
        None => {
            eprintln!(
                "second edits every [MOST] | edits long | edits SEED COUNT MAX | records every | records SEED COUNT MAX | unwrap every | unwrap SEED COUNT MAX\n\
                second recenter TICKS | recenter make FOLDER | recenter random SEED COUNT FOLDER"
            );
            exit(2)
        }
    }
}
