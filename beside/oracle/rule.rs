//! Answers by document 01 alone: the tree by the cell rule, walks as recursion, every formula written anew. Nothing of the Rust is used.

mod force;
mod number;
mod tree;

use crate::answer::{Answer, Moved, Outcome, Row, State};
use crate::case::{Case, Force, Record, Tick};
use crate::refusal::{self, refuse, within_limit, Check, Refusal};
use force::Flow;
use tree::{Below, Point, Tree, Visit};

pub fn answer(case: &Case) -> Outcome {
    match case {
        Case::Floor(x) => floor(*x),
        Case::Root(x) => Ok(Answer::Root(number::root(*x))),
        Case::Tree { slots, particles } => listed(*slots, particles),
        Case::Visit { particles, skips } => visited(particles, skips),
        Case::Force { slots, force, alpha, particles, draws } => single(*slots, force, *alpha, particles, draws),
        Case::Move { decay, particles } => closing(*decay, particles),
        Case::Tick(tick) => ticked(tick),
        Case::Step { tick, min, budget } => stepped(tick, *min, *budget),
    }
}

fn floor(x: f64) -> Outcome {
    refusal::floor(x)?;
    Ok(Answer::Floor(number::floor(x) as i64))
}

// ---- tree and visit

fn points_in(records: &[Record]) -> Vec<Point> {
    records.iter().map(|r| [r.x, r.y]).collect()
}

fn listed(slots: usize, records: &[Record]) -> Outcome {
    refusal::tree(records)?;
    let points = points_in(records);
    let mut rows = Vec::new();
    if let Some(root) = tree::build(&points, slots)? {
        list(&root, 0, 0, &mut rows);
    }
    let extent = tree::extent(&points).map_or([0.0; 4], |c| [c.x0, c.y0, c.x1, c.y1]);
    Ok(Answer::Tree { extent, rows })
}

fn list(tree: &Tree<()>, level: usize, quadrant: usize, rows: &mut Vec<Row>) {
    match &tree.below {
        Below::Chain(chain) => rows.push(Row { level, quadrant, chain: chain.clone() }),
        Below::Children(children) => {
            rows.push(Row { level, quadrant, chain: Vec::new() });
            for (q, child) in children.iter().enumerate() {
                if let Some(child) = child {
                    list(child, level + 1, q, rows);
                }
            }
        }
    }
}

/// The tree with each node's number, parent first, in it.
fn numbered(tree: Tree<()>, next: &mut usize) -> Tree<usize> {
    let value = *next;
    *next += 1;
    let below = match tree.below {
        Below::Chain(chain) => Below::Chain(chain),
        Below::Children(children) => Below::Children(children.map(|child| child.map(|child| Box::new(numbered(*child, next))))),
    };
    Tree { cell: tree.cell, value, below }
}

fn visited(records: &[Record], skips: &[usize]) -> Outcome {
    refusal::tree(records)?;
    let (mut first, mut last) = (Vec::new(), Vec::new());
    if let Some(root) = tree::build(&points_in(records), usize::MAX)? {
        let root = numbered(root, &mut 0);
        tree::walk(&root, &mut |node| {
            first.push(node.value);
            Ok(if skips.contains(&node.value) { Visit::Skip } else { Visit::Continue })
        })?;
        tree::walk_after(&root, &mut |node| last.push(node.value));
    }
    Ok(Answer::Visit { first, last })
}

// ---- one force, and the closing move

fn moved_of(records: &[Record]) -> Vec<Moved> {
    records.iter().map(|r| Moved { x: r.x, y: r.y, vx: r.vx, vy: r.vy }).collect()
}

/// 9, where a place or velocity is out of range.
fn settled(particles: &[Moved]) -> Check {
    let out = |p: &Moved| !(within_limit(p.x) && within_limit(p.y) && p.vx.is_finite() && p.vy.is_finite());
    if particles.iter().any(out) {
        refuse(9, 0)
    } else {
        Ok(())
    }
}

fn single(slots: usize, force: &Force, alpha: f64, records: &[Record], draws: &[f64]) -> Outcome {
    refusal::force(force, alpha, records, draws)?;
    let particles = moved_of(records);
    let state = after_force(force, slots, draws, State { moved: particles, alpha, visits: 0, used: 0 })?;
    if let Force::Center { .. } = force {
        return Ok(Answer::Moved(state.moved));
    }
    let velocities = state.moved.iter().map(|p| [p.vx, p.vy]).collect();
    Ok(Answer::Force { visits: state.visits, used: state.used, velocities })
}

/// The state after one force, in range.
fn after_force(force: &Force, slots: usize, draws: &[f64], mut state: State) -> Result<State, Refusal> {
    if let Force::Center { x, y, strength } = force {
        force::center(*x, *y, *strength, &mut state.moved);
    } else {
        let places: Vec<Point> = state.moved.iter().map(|p| [p.x, p.y]).collect();
        let velocities = state.moved.iter().map(|p| [p.vx, p.vy]).collect();
        let mut flow = Flow { velocities, draws, used: state.used, visits: state.visits };
        force::run(force, &places, slots, state.alpha, &mut flow)?;
        for (p, [vx, vy]) in state.moved.iter_mut().zip(flow.velocities) {
            p.vx = vx;
            p.vy = vy;
        }
        state.used = flow.used;
        state.visits = flow.visits;
    }
    settled(&state.moved)?;
    Ok(state)
}

/// The closing move, each particle beside its record at entry. Both flags hold x.
fn after_closing(entry: &[Record], home: &[Moved], decay: f64, mut particles: Vec<Moved>) -> Result<Vec<Moved>, Refusal> {
    for (i, p) in particles.iter_mut().enumerate() {
        let held = entry[i].flags != 0;
        force::close(p, if held { Some(home[i].x) } else { None }, decay);
    }
    settled(&particles)?;
    Ok(particles)
}

fn closing(decay: f64, records: &[Record]) -> Outcome {
    refusal::closing(decay, records)?;
    let particles = moved_of(records);
    Ok(Answer::Moved(after_closing(records, &particles, decay, particles.clone())?))
}

// ---- tick and step

/// One tick: alpha, forces, closing move; the first refusing stage decides.
fn after_tick(tick: &Tick, forces: &[Force], entry: &State) -> Result<State, Refusal> {
    let mut state = entry.clone();
    state.alpha += (tick.target - state.alpha) * tick.decay;
    if !within_limit(state.alpha) {
        return refuse(9, 0);
    }
    for force in forces {
        state = after_force(force, tick.slots, &tick.draws, state)?;
    }
    state.moved = after_closing(&tick.particles, &entry.moved, tick.velocity_decay, state.moved)?;
    Ok(state)
}

fn entry_of(tick: &Tick) -> State {
    State { moved: moved_of(&tick.particles), alpha: tick.alpha, visits: 0, used: 0 }
}

fn ticked(tick: &Tick) -> Outcome {
    let forces = refusal::tick(tick)?;
    Ok(Answer::Tick(after_tick(tick, &forces, &entry_of(tick))?))
}

fn stepped(tick: &Tick, min: f64, budget: u64) -> Outcome {
    let forces = refusal::step(tick, min, budget)?;
    let mut state = entry_of(tick);
    let mut ticks = 0;
    let mut stop = None;
    while stop.is_none() && ticks < budget && state.alpha > min {
        match after_tick(tick, &forces, &state) {
            Err(refusal) => stop = Some(refusal),
            Ok(next) => {
                state = next;
                ticks += 1;
            }
        }
    }
    Ok(Answer::Step { ticks, finished: state.alpha <= min, stop, state })
}
