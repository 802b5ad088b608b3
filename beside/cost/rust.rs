//! The Rust's side. A force is initialized and applied, as a call is lent its lists; of a tick and a step the forces are initialized before.

use crate::input::{words, Edit, Input, COOLING, DECAY, LEAST, TICKS};
use crate::meter::Meter;
use crate::Done;
use fjadra::force::jiggle::{apply, lend, ran_dry, used, Force, Particle, ParticleIndex};
use fjadra::force::{Center, Collide, ForceBuilder, Link, ManyBody, Node, Simulation, SimulationBuilder};
use fjadra::quadtree::Quadtree;
use talemiku::RECORD_BYTES;

fn particles_of(input: &Input) -> Vec<Particle> {
    let particle = |(i, &[x, y, vx, vy]): (usize, &[f64; 4])| {
        let mut p = Particle::new(i, x, y);
        p.vx = vx;
        p.vy = vy;
        p
    };
    input.particles.iter().enumerate().map(particle).collect()
}

/// Draws used, then what a force changes.
fn velocities(particles: &[Particle]) -> Vec<u64> {
    let mut bits = vec![used() as u64];
    bits.extend(particles.iter().flat_map(|p| [p.vx.to_bits(), p.vy.to_bits()]));
    bits
}

fn whole(simulation: &Simulation) -> Vec<u64> {
    let mut bits = vec![used() as u64, simulation.alpha().to_bits()];
    bits.extend(simulation.particles.iter().flat_map(|p| [p.x, p.y, p.vx, p.vy].map(f64::to_bits)));
    bits
}

fn many_body_of(input: &Input) -> ManyBody {
    let strengths = input.strengths.clone();
    ManyBody::new().strength(move |_: ParticleIndex, i: usize| strengths[i])
}

fn collide_of(input: &Input) -> Collide {
    let radii = input.radii.clone();
    Collide::new().radius(move |i| radii[i])
}

fn link_of(input: &Input) -> Link {
    let distances = input.distances.clone();
    Link::new(input.links.iter().copied()).distance(move |_: &(ParticleIndex, ParticleIndex), i: usize| distances[i])
}

fn force(input: &Input, meter: &mut Meter, initialize: impl FnOnce(&[Particle]) -> Force) -> Done {
    let mut particles = particles_of(input);
    lend(&input.draws);
    let (cost, ()) = meter.measure(|| apply(&initialize(&particles), 1.0, &mut particles));
    assert!(!ran_dry(), "too few draws");
    Done { cost, bits: velocities(&particles), nodes: 0 }
}

fn simulation(input: &Input) -> Simulation {
    let mut whole =
        SimulationBuilder::new().with_alpha_min(LEAST).with_alpha_decay(COOLING).with_velocity_decay(DECAY).build(Vec::<Node>::new());
    whole.particles = particles_of(input);
    lend(&input.draws);
    whole
        .add_force("0", many_body_of(input))
        .add_force("1", collide_of(input))
        .add_force("2", link_of(input))
        .add_force("3", Center::new().x(500.0).y(500.0))
}

type Tree = Quadtree<(), usize>;

/// A point, and its number.
fn point(input: &Input, i: usize) -> (f64, f64, usize) {
    let [x, y, ..] = input.particles[i];
    (x, y, i)
}

/// How many nodes, the extent, then the nodes and the chains as they were listed.
fn listed((rows, chains): &(Vec<u32>, Vec<u32>), extent: ([i64; 2], [i64; 2])) -> Vec<u64> {
    let mut bits = vec![rows.len() as u64 / 4];
    bits.extend([extent.0[0], extent.0[1], extent.1[0], extent.1[1]].map(|end| (end as f64).to_bits()));
    bits.extend(rows.iter().chain(chains).map(|&n| u64::from(n)));
    bits
}

pub fn tree(input: &Input, meter: &mut Meter) -> Done {
    let mut lists = (Vec::new(), Vec::new());
    let points = input.particles.iter().enumerate().map(|(i, p)| (p[0], p[1], i));
    let (cost, extent) = meter.measure(|| {
        let tree = Tree::from_particles(points);
        tree.list_flat(&mut lists.0, &mut lists.1);
        tree.extent()
    });
    Done { cost, bits: listed(&lists, extent), nodes: 0 }
}

/// Measures the tree of all points, edits aside. What is compared is the tree that so many edits leave: all points that were in are covered, and those that are there go in.
pub fn tree_beside_edits(input: &Input, meter: &mut Meter) -> Done {
    let cost = tree(input, meter).cost;
    let mut bits = Vec::new();
    for edits in input.looks() {
        let mut tree = Tree::default();
        for edit in &input.edits[..edits] {
            if let Edit::In(i) = *edit {
                let (x, y, _) = point(input, i);
                tree.cover(x, y);
            }
        }
        for (x, y, i) in input.there(edits).iter().map(|&i| point(input, i)) {
            tree.insert(x, y, i);
        }
        let mut lists = (Vec::new(), Vec::new());
        tree.list_flat(&mut lists.0, &mut lists.1);
        bits.extend(listed(&lists, tree.extent()));
    }
    Done { cost, bits, nodes: 0 }
}

/// A tree afresh after each edit, of what is then there. What is compared is which points it has.
pub fn tree_at_each(input: &Input, meter: &mut Meter) -> Done {
    let looks: Vec<usize> = input.looks().collect();
    let mut there: Vec<(f64, f64, usize)> = Vec::new();
    let (cost, bits) = meter.measure(|| {
        let mut bits = Vec::new();
        for (k, &edit) in input.edits.iter().enumerate() {
            match edit {
                Edit::In(i) => there.push(point(input, i)),
                Edit::Out(i) => there.retain(|p| p.2 != i),
            }
            let (mut rows, mut chains) = (Vec::new(), Vec::new());
            Tree::from_particles(there.iter().copied()).list_flat(&mut rows, &mut chains);
            if looks.contains(&(k + 1)) {
                chains.sort_unstable();
                bits.extend(chains.iter().map(|&i| u64::from(i)));
            }
        }
        bits
    });
    Done { cost, bits, nodes: 0 }
}

/// What a host would do itself to write a sheet, and to read one: nothing is tested.
fn put_records(input: &Input, sheet: &mut [u8]) {
    for (record, &[x, y, vx, vy]) in sheet.chunks_exact_mut(RECORD_BYTES).zip(&input.particles) {
        for (bytes, word) in record.chunks_exact_mut(8).zip([x.to_bits(), y.to_bits(), vx.to_bits(), vy.to_bits(), 0]) {
            bytes.copy_from_slice(&word.to_le_bytes());
        }
    }
}

/// x, y, vx, vy and flags.
fn record_of(bytes: &[u8]) -> (f64, f64, f64, f64, u64) {
    let word = |k: usize| u64::from_le_bytes(bytes[8 * k..8 * k + 8].try_into().expect("eight bytes"));
    let number = |k| f64::from_bits(word(k));
    (number(0), number(1), number(2), number(3), word(4))
}

pub fn write(input: &Input, meter: &mut Meter) -> Done {
    let mut sheet = vec![0; input.particles.len() * RECORD_BYTES];
    let (cost, ()) = meter.measure(|| put_records(input, &mut sheet));
    Done { cost, bits: words(&sheet), nodes: 0 }
}

pub fn read(input: &Input, meter: &mut Meter) -> Done {
    let mut sheet = vec![0; input.particles.len() * RECORD_BYTES];
    put_records(input, &mut sheet);
    let mut particles = vec![(0.0, 0.0, 0.0, 0.0, 0); input.particles.len()];
    let (cost, ()) = meter.measure(|| {
        for (particle, record) in particles.iter_mut().zip(sheet.chunks_exact(RECORD_BYTES)) {
            *particle = record_of(record);
        }
    });
    let bits = particles.iter().flat_map(|&(x, y, vx, vy, flags)| [x.to_bits(), y.to_bits(), vx.to_bits(), vy.to_bits(), flags]).collect();
    Done { cost, bits, nodes: 0 }
}

pub fn many_body(input: &Input, meter: &mut Meter) -> Done {
    let builder = many_body_of(input);
    force(input, meter, |particles| builder.initialize(particles))
}

pub fn collide(input: &Input, meter: &mut Meter) -> Done {
    let builder = collide_of(input);
    force(input, meter, |particles| builder.initialize(particles))
}

pub fn link(input: &Input, meter: &mut Meter) -> Done {
    let builder = link_of(input);
    force(input, meter, |particles| builder.initialize(particles))
}

pub fn tick(input: &Input, meter: &mut Meter) -> Done {
    let mut simulation = simulation(input);
    let (cost, ()) = meter.measure(|| simulation.tick(1));
    assert!(!ran_dry(), "too few draws");
    Done { cost, bits: whole(&simulation), nodes: 0 }
}

pub fn step(input: &Input, meter: &mut Meter) -> Done {
    let mut simulation = simulation(input);
    let mut ticks = 0;
    let (cost, ()) = meter.measure(|| {
        while !simulation.is_finished() && ticks < TICKS {
            simulation.tick(1);
            ticks += 1;
        }
    });
    assert!(!ran_dry(), "too few draws");
    let mut bits = vec![ticks];
    bits.extend(whole(&simulation));
    Done { cost, bits, nodes: 0 }
}
