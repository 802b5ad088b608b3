//! The answers: what each call gives, and the line that says it.

use crate::case::hex;
use crate::refusal::Refusal;

/// A node in a listing; an internal one has no chain.
pub struct Row {
    pub level: usize,
    pub quadrant: usize,
    pub chain: Vec<usize>,
}

#[derive(Clone, Copy, PartialEq)]
pub struct Moved {
    pub x: f64,
    pub y: f64,
    pub vx: f64,
    pub vy: f64,
}

pub enum Answer {
    Floor(i64),
    Root(f64),
    Tree { extent: [f64; 4], rows: Vec<Row> },
    Visit { first: Vec<usize>, last: Vec<usize> },
    Force { visits: u64, used: usize, velocities: Vec<[f64; 2]> },
    Moved(Vec<Moved>),
    Tick(State),
    Step { ticks: u64, finished: bool, stop: Option<Refusal>, state: State },
}

/// What a tick leaves, and what it took so far.
#[derive(Clone)]
pub struct State {
    pub moved: Vec<Moved>,
    pub alpha: f64,
    pub visits: u64,
    pub used: usize,
}

pub type Outcome = Result<Answer, Refusal>;

fn words<A>(head: &str, list: &[A], word: impl Fn(&A) -> String) -> String {
    let mut text = head.to_string();
    for a in list {
        text.push(' ');
        text.push_str(&word(a));
    }
    text
}

fn row(r: &Row) -> String {
    format!("{},{},{},{}", r.level, r.quadrant, if r.chain.is_empty() { 1 } else { 2 }, r.chain.len())
}

fn tree(extent: &[f64; 4], rows: &[Row]) -> String {
    let chains: Vec<usize> = rows.iter().flat_map(|r| r.chain.iter().copied()).collect();
    let head = format!("{} {} |", words("ok", extent, |&x| hex(x)), rows.len());
    words(&format!("{} |", words(&head, rows, row)), &chains, usize::to_string)
}

fn moved(head: &str, list: &[Moved]) -> String {
    words(head, list, |m| format!("{} {} {} {}", hex(m.x), hex(m.y), hex(m.vx), hex(m.vy)))
}

/// The line of an answer or a refusal.
pub fn write(outcome: &Outcome) -> String {
    match outcome {
        Err(r) => format!("refused {} {}", r.number, r.place),
        Ok(Answer::Floor(z)) => format!("ok {z}"),
        Ok(Answer::Root(x)) => format!("ok {}", hex(*x)),
        Ok(Answer::Tree { extent, rows }) => tree(extent, rows),
        Ok(Answer::Visit { first, last }) => words(&format!("{} |", words("ok", first, usize::to_string)), last, usize::to_string),
        Ok(Answer::Force { visits, used, velocities }) => {
            words(&format!("ok {visits} {used} |"), velocities, |v| format!("{} {}", hex(v[0]), hex(v[1])))
        }
        Ok(Answer::Moved(list)) => moved("ok |", list),
        Ok(Answer::Tick(s)) => moved(&format!("ok {} {} {} |", s.visits, s.used, hex(s.alpha)), &s.moved),
        Ok(Answer::Step { ticks, finished, stop, state: s }) => {
            let (number, place) = stop.map_or((0, 0), |r| (r.number, r.place));
            let head = format!("ok {ticks} {} {} {} {} {number} {place} |", *finished as u8, s.visits, s.used, hex(s.alpha));
            moved(&head, &s.moved)
        }
    }
}
