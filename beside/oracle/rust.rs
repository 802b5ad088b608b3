//! Answers by the original Rust. Refusals are our own reading: the Rust is never run where 01 refuses by 6, nor on after a 9.

use fjadra::force::jiggle::{apply, close, lend, ran_dry, used, Force as Built, Particle, ParticleIndex};
use fjadra::force::{Center, Collide, ForceBuilder, Link, ManyBody, Node, Simulation, SimulationBuilder};
use fjadra::quadtree::{Quadtree, Visit};
use fjadra::take_visits;

use crate::answer::{write, Answer, Moved, Outcome, Row, State};
use crate::case::{Case, Force, Record, Tick};
use crate::refusal::{self, refuse, within_limit, Check, Refusal};

/// How a strength or radius of -0.0 is handed over.
#[derive(Clone, Copy, PartialEq)]
pub enum MinusZero {
    AsZero,
    AsItIs,
}

/// The answer's line, or the word `disagree` and two lines where the Rust's own tick and its stages part.
pub fn answer(case: &Case, minus: MinusZero) -> String {
    match case {
        Case::Floor(x) => write(&floor(*x)),
        Case::Root(x) => write(&Ok(Answer::Root(x.sqrt()))),
        Case::Tree { slots, particles } => write(&tree(*slots, particles)),
        Case::Visit { particles, skips } => write(&visit(particles, skips)),
        Case::Force { slots, force, alpha, particles, draws } => write(&single(*slots, &handed(force, minus), *alpha, particles, draws)),
        Case::Move { decay, particles } => write(&closing(*decay, particles)),
        Case::Tick(tick) => ticked(tick, minus),
        Case::Step { tick, min, budget } => stepped(tick, *min, *budget, minus),
    }
}

// ---- in and out

fn particle(i: usize, r: &Record) -> Particle {
    let mut p = Particle::new(i, r.x, r.y);
    p.vx = r.vx;
    p.vy = r.vy;
    if r.flags & 1 != 0 {
        p = p.with_fixed_x();
    }
    if r.flags & 2 != 0 {
        p = p.with_fixed_y();
    }
    p
}

fn particles_of(records: &[Record]) -> Vec<Particle> {
    records.iter().enumerate().map(|(i, r)| particle(i, r)).collect()
}

fn moved(particles: &[Particle]) -> Vec<Moved> {
    particles.iter().map(|p| Moved { x: p.x, y: p.y, vx: p.vx, vy: p.vy }).collect()
}

fn points_of(particles: &[Particle]) -> Vec<[f64; 2]> {
    particles.iter().map(|p| [p.x, p.y]).collect()
}

fn points_in(records: &[Record]) -> Vec<[f64; 2]> {
    records.iter().map(|r| [r.x, r.y]).collect()
}

// ---- the tree

/// Floor, as cover takes it of a first point.
fn floor(x: f64) -> Outcome {
    refusal::floor(x)?;
    let mut tree = Quadtree::<(), ()>::default();
    tree.cover(x, 0.0);
    Ok(Answer::Floor(tree.extent().0[0]))
}

/// The level at which the leaves of two points in one root cell stand: 0 if they are equal, 65 for any past 64.
fn level_of_pair(extent: ([i64; 2], [i64; 2]), p: [f64; 2], q: [f64; 2]) -> usize {
    let mut low = extent.0.map(|end| end as f64);
    let mut high = extent.1.map(|end| end as f64);
    let mut level = 0;
    while p != q && level < 65 {
        level += 1;
        for axis in 0..2 {
            let middle = (low[axis] + high[axis]) / 2.0;
            if (p[axis] >= middle) != (q[axis] >= middle) {
                return level;
            }
            if p[axis] >= middle {
                low[axis] = middle;
            } else {
                high[axis] = middle;
            }
        }
    }
    level
}

fn deepest_pair(extent: ([i64; 2], [i64; 2]), points: &[[f64; 2]], q: [f64; 2]) -> usize {
    points.iter().map(|&p| level_of_pair(extent, p, q)).max().unwrap_or(0)
}

/// The tree of the points in order, or 6 or 7 at the first that breaks either. Levels come from the extent that the Rust's cover
/// reaches and from pairs of points, before the point is inserted; nodes are counted in the Rust's tree.
fn build<Q: Default>(points: &[[f64; 2]], slots: usize) -> Result<Quadtree<Q, usize>, Refusal> {
    let mut tree = Quadtree::default();
    let mut covered = Quadtree::<(), ()>::default();
    let mut deepest = 0;
    for (i, &[x, y]) in points.iter().enumerate() {
        let before = covered.extent();
        covered.cover(x, y);
        let extent = covered.extent();
        let first = if extent == before { i } else { 0 };
        let added = (first..=i).map(|k| deepest_pair(extent, &points[..k], points[k])).max();
        deepest = deepest.max(added.unwrap_or(0));
        if deepest > 64 {
            return refuse(6, i);
        }
        tree.insert(x, y, i);
        let rows = tree.rows();
        assert_eq!(rows.iter().map(|r| r.level).max(), Some(deepest), "levels of the Rust's tree");
        if rows.len() > slots {
            return refuse(7, i);
        }
    }
    Ok(tree)
}

fn check_tree(points: &[[f64; 2]], slots: usize) -> Check {
    build::<()>(points, slots).map(|_| ())
}

fn tree(slots: usize, records: &[Record]) -> Outcome {
    refusal::tree(records)?;
    let tree = build::<()>(&points_in(records), slots)?;
    let ([x0, y0], [x1, y1]) = if records.is_empty() { ([0; 2], [0; 2]) } else { tree.extent() };
    let rows = tree.rows().into_iter().map(|r| Row { level: r.level, quadrant: r.quadrant, chain: r.chain }).collect();
    Ok(Answer::Tree { extent: [x0, y0, x1, y1].map(|end| end as f64), rows })
}

fn visit(records: &[Record], skips: &[usize]) -> Outcome {
    refusal::tree(records)?;
    let mut tree = build::<usize>(&points_in(records), usize::MAX)?;
    tree.number();
    let (mut first, mut last) = (Vec::new(), Vec::new());
    tree.visit(|quad| {
        first.push(*quad.value());
        Visit::stop_if(skips.contains(quad.value()))
    });
    tree.visit_after(|quad| last.push(*quad.value()));
    Ok(Answer::Visit { first, last })
}

// ---- forces

/// The force with -0.0 strengths and radii as they are to be handed over.
fn handed(force: &Force, minus: MinusZero) -> Force {
    let mut force = force.clone();
    if minus == MinusZero::AsZero {
        if let Force::ManyBody { strengths: list } | Force::Collide { radii: list, .. } = &mut force {
            for x in list.iter_mut().filter(|x| **x == 0.0) {
                *x = 0.0;
            }
        }
    }
    force
}

fn many_body(strengths: &[f64]) -> ManyBody {
    let strengths = strengths.to_vec();
    ManyBody::new().strength(move |_: ParticleIndex, i: usize| strengths[i])
}

fn collide(strength: f64, iterations: u64, radii: &[f64]) -> Collide {
    let radii = radii.to_vec();
    Collide::new().strength(strength).iterations(iterations as usize).radius(move |i| radii[i])
}

fn link(iterations: u64, links: &[(usize, usize)], strengths: &[f64], distances: &[f64]) -> Link {
    let (strengths, distances) = (strengths.to_vec(), distances.to_vec());
    let link = Link::new(links.iter().copied())
        .iterations(iterations as usize)
        .distance(move |_: &(ParticleIndex, ParticleIndex), i: usize| distances[i]);
    if strengths.is_empty() {
        link
    } else {
        link.strength(move |_: &(ParticleIndex, ParticleIndex), i: usize| strengths[i])
    }
}

fn center(x: f64, y: f64, strength: f64) -> Center {
    Center::new().x(x).y(y).strength(strength)
}

fn built(force: &Force, particles: &[Particle]) -> Option<Built> {
    match force {
        Force::Empty | Force::Unknown(_) => None,
        Force::ManyBody { strengths } => Some(many_body(strengths).initialize(particles)),
        Force::Collide { strength, iterations, radii } => Some(collide(*strength, *iterations, radii).initialize(particles)),
        Force::Link { iterations, links, strengths, distances } => {
            Some(link(*iterations, links, strengths, distances).initialize(particles))
        }
        Force::Center { x, y, strength } => Some(center(*x, *y, *strength).initialize(particles)),
    }
}

fn builds_tree(force: &Force) -> bool {
    match force {
        Force::ManyBody { .. } => true,
        Force::Collide { iterations, .. } => *iterations > 0,
        _ => false,
    }
}

/// Applies one force, after 6 and 7 and before 9; a draw that was not lent is 8.
fn push(force: &Force, slots: usize, alpha: f64, particles: &mut [Particle]) -> Check {
    if builds_tree(force) {
        check_tree(&points_of(particles), slots)?;
    }
    if let Some(built) = built(force, particles) {
        apply(&built, alpha, particles);
    }
    if ran_dry() {
        return refuse(8, 0);
    }
    Ok(())
}

/// 9, where a place or velocity is out of range.
fn settled(particles: &[Particle]) -> Check {
    let fine = |p: &Particle| within_limit(p.x) && within_limit(p.y) && p.vx.is_finite() && p.vy.is_finite();
    if particles.iter().all(fine) {
        Ok(())
    } else {
        refuse(9, 0)
    }
}

fn single(slots: usize, force: &Force, alpha: f64, records: &[Record], draws: &[f64]) -> Outcome {
    refusal::force(force, alpha, records, draws)?;
    let mut particles = particles_of(records);
    begin(draws);
    push(force, slots, alpha, &mut particles)?;
    settled(&particles)?;
    if let Force::Center { .. } = force {
        return Ok(Answer::Moved(moved(&particles)));
    }
    let velocities = particles.iter().map(|p| [p.vx, p.vy]).collect();
    Ok(Answer::Force { visits: take_visits(), used: used(), velocities })
}

fn closing(decay: f64, records: &[Record]) -> Outcome {
    refusal::closing(decay, records)?;
    let mut particles = particles_of(records);
    close(decay, &mut particles);
    settled(&particles)?;
    Ok(Answer::Moved(moved(&particles)))
}

// ---- tick and step, stage by stage

/// Lends the draws and sets the count of visits to 0.
fn begin(draws: &[f64]) {
    lend(draws);
    take_visits();
}

/// One tick in its stages; the first that refuses decides.
fn stages(tick: &Tick, forces: &[Force], alpha: &mut f64, particles: &mut [Particle]) -> Check {
    *alpha += (tick.target - *alpha) * tick.decay;
    if !within_limit(*alpha) {
        return refuse(9, 0);
    }
    for force in forces {
        push(force, tick.slots, *alpha, particles)?;
        settled(particles)?;
    }
    close(tick.velocity_decay, particles);
    settled(particles)
}

fn forces_of(cut: &[Force], minus: MinusZero) -> Vec<Force> {
    cut.iter().map(|f| handed(f, minus)).collect()
}

fn ticked(tick: &Tick, minus: MinusZero) -> String {
    let forces = match refusal::tick(tick) {
        Ok(cut) => forces_of(&cut, minus),
        Err(r) => return write(&Err(r)),
    };
    let outcome = tick_in_stages(tick, &forces);
    if outcome.is_err() {
        return write(&outcome);
    }
    let mut whole = simulation(tick, &forces, 0.0);
    begin(&tick.draws);
    whole.tick(1);
    agreed(&outcome, &Ok(Answer::Tick(left_by(&whole))))
}

fn tick_in_stages(tick: &Tick, forces: &[Force]) -> Outcome {
    let mut particles = particles_of(&tick.particles);
    let mut alpha = tick.alpha;
    begin(&tick.draws);
    stages(tick, forces, &mut alpha, &mut particles)?;
    Ok(Answer::Tick(State { moved: moved(&particles), alpha, visits: take_visits(), used: used() }))
}

fn stepped(tick: &Tick, min: f64, budget: u64, minus: MinusZero) -> String {
    let forces = match refusal::step(tick, min, budget) {
        Ok(cut) => forces_of(&cut, minus),
        Err(r) => return write(&Err(r)),
    };
    let mut particles = particles_of(&tick.particles);
    let mut state = State { moved: moved(&particles), alpha: tick.alpha, visits: 0, used: 0 };
    let mut ticks = 0;
    let mut stop = None;
    begin(&tick.draws);
    while state.alpha > min && ticks < budget {
        let mut alpha = state.alpha;
        if let Err(refusal) = stages(tick, &forces, &mut alpha, &mut particles) {
            stop = Some(refusal);
            break;
        }
        state = State { moved: moved(&particles), alpha, visits: state.visits + take_visits(), used: used() };
        ticks += 1;
    }
    let finished = state.alpha <= min;
    let answer = |finished, state| Ok(Answer::Step { ticks, finished, stop, state });
    let outcome = answer(finished, state);
    if stop.is_some() {
        return write(&outcome);
    }
    let mut whole = simulation(tick, &forces, min);
    begin(&tick.draws);
    if finished {
        whole.step();
    } else {
        whole.tick(ticks as usize);
    }
    agreed(&outcome, &answer(whole.is_finished(), left_by(&whole)))
}

// ---- tick and step, by the Rust's own

fn simulation(tick: &Tick, forces: &[Force], min: f64) -> Simulation {
    let mut whole = SimulationBuilder::new()
        .with_alpha(tick.alpha)
        .with_alpha_min(min)
        .with_alpha_target(tick.target)
        .with_alpha_decay(tick.decay)
        .with_velocity_decay(tick.velocity_decay)
        .build(Vec::<Node>::new());
    whole.particles = particles_of(&tick.particles);
    for (slot, force) in forces.iter().enumerate() {
        let name = slot.to_string();
        whole = match force {
            Force::Empty | Force::Unknown(_) => whole,
            Force::ManyBody { strengths } => whole.add_force(name, many_body(strengths)),
            Force::Collide { strength, iterations, radii } => whole.add_force(name, collide(*strength, *iterations, radii)),
            Force::Link { iterations, links, strengths, distances } => {
                whole.add_force(name, link(*iterations, links, strengths, distances))
            }
            Force::Center { x, y, strength } => whole.add_force(name, center(*x, *y, *strength)),
        };
    }
    whole
}

fn left_by(whole: &Simulation) -> State {
    State { moved: moved(&whole.particles), alpha: whole.alpha(), visits: take_visits(), used: used() }
}

fn agreed(stages: &Outcome, whole: &Outcome) -> String {
    let (stages, whole) = (write(stages), write(whole));
    if stages == whole {
        stages
    } else {
        format!("disagree, by stages: {stages}, whole: {whole}")
    }
}
