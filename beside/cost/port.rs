//! The archive's side, through the crate of host/. What is lent is laid out before; work slots hold rubbish.

use crate::input::{self, Edit, Input, COOLING, DECAY, LEAST, TICKS};
use crate::meter::{Cost, Meter};
use crate::Done;
use talemiku::raw;
use talemiku::{Edits, Force, Forces, Links, Particle, RECORD_BYTES, ROW_NUMBERS, SLOT_WORDS};

const RUBBISH: u64 = 0x7ff4_0000_dead_beef;

fn work(input: &Input) -> Vec<u64> {
    vec![RUBBISH; input.slots() * SLOT_WORDS]
}

fn places(input: &Input) -> Vec<f64> {
    input.particles.iter().flat_map(|&[x, y, ..]| [x, y]).collect()
}

fn velocities(input: &Input) -> Vec<u8> {
    talemiku::velocity_bytes(&input.particles.iter().flat_map(|&[_, _, vx, vy]| [vx, vy]).collect::<Vec<_>>())
}

fn particles(input: &Input) -> Vec<Particle> {
    let particle = |&[x, y, vx, vy]: &[f64; 4]| Particle { x, y, vx, vy, flags: 0 };
    input.particles.iter().map(particle).collect()
}

fn sheet(input: &Input) -> Vec<u8> {
    talemiku::sheet_of(&particles(input))
}

fn ends(input: &Input) -> Vec<u32> {
    input.links.iter().flat_map(|&(source, target)| [source as u32, target as u32]).collect()
}

fn accepted(refusal: raw::Refusal) {
    assert_eq!(refusal.number, 0, "refused at {}", refusal.place);
}

/// A force's call on places, velocities and work slots.
fn force(input: &Input, meter: &mut Meter, call: impl FnOnce(&[f64], &mut [u8], &mut [u64]) -> raw::Counts) -> Done {
    let (places, mut buffer, mut work) = (places(input), velocities(input), work(input));
    let (cost, counts) = meter.measure(|| call(&places, &mut buffer, &mut work));
    accepted(counts.refusal);
    let mut bits = vec![counts.draws];
    bits.extend(talemiku::velocities_of(&buffer).iter().map(|v| v.to_bits()));
    Done { cost, bits, nodes: counts.visits }
}

fn forces(input: &Input) -> Forces {
    let ends = ends(input);
    let mut slots = [None; talemiku::FORCE_SLOTS];
    slots[0] = Some(Force::ManyBody { strengths: &input.strengths });
    slots[1] = Some(Force::Collide { radii: &input.radii, strength: 1.0, iterations: 1 });
    slots[2] = Some(Force::Link(Links { ends: &ends, strengths: &[], distances: &input.distances, iterations: 1 }));
    slots[3] = Some(Force::Center { x: 500.0, y: 500.0, strength: 1.0 });
    Forces::new(input.particles.len(), &slots)
}

fn whole(draws: u64, alpha: u64, sheet: &[u8]) -> Vec<u64> {
    let mut bits = vec![draws, alpha];
    bits.extend(talemiku::particles_of(sheet).iter().flat_map(|p| [p.x, p.y, p.vx, p.vy].map(f64::to_bits)));
    bits
}

/// How many nodes, the extent, then the nodes and the chains; what was left over of these lists isn't in them.
fn listed(answer: raw::TreeAnswer, rows: &[u32], chains: &[u32]) -> Vec<u64> {
    accepted(answer.refusal);
    let e = answer.extent;
    let mut bits = vec![answer.nodes];
    bits.extend([e.x0, e.y0, e.x1, e.y1].map(f64::to_bits));
    bits.extend(rows[..answer.nodes as usize * ROW_NUMBERS].iter().chain(chains).map(|&n| u64::from(n)));
    bits
}

pub fn tree(input: &Input, meter: &mut Meter) -> Done {
    let (sheet, mut work) = (sheet(input), work(input));
    let mut rows = vec![0; input.slots() * ROW_NUMBERS];
    let mut chains = vec![0; input.particles.len()];
    let (cost, answer) = meter.measure(|| raw::tree(&sheet, &mut rows, &mut chains, &mut work));
    Done { cost, bits: listed(answer, &rows, &chains), nodes: answer.nodes }
}

/// What a list of edits gave.
struct Edited {
    cost: Cost,
    answer: raw::TreeAnswer,
    rows: Vec<u32>,
    chains: Vec<u32>,
}

/// The call on so many edits.
fn edited(input: &Input, count: usize, meter: &mut Meter) -> Edited {
    let mut list = Edits::new();
    for &edit in &input.edits[..count] {
        match edit {
            Edit::In(i) => assert_eq!(list.insert(input.particles[i][0], input.particles[i][1]), i),
            Edit::Out(i) => list.remove(i),
        }
    }
    let mut rows = vec![0; input.slots() * ROW_NUMBERS];
    let mut chains = vec![0; list.insertions()];
    let mut work = work(input);
    let (cost, answer) = meter.measure(|| raw::edits(list.words(), &mut rows, &mut chains, &mut work));
    accepted(answer.refusal);
    chains.truncate(input.there(count).len());
    Edited { cost, answer, rows, chains }
}

/// Measures the call on all edits; `bits_of` says what is compared of the trees that so many edits leave. The nodes are the most that one of these has.
fn all_edits(input: &Input, meter: &mut Meter, bits_of: impl Fn(Edited) -> Vec<u64>) -> Done {
    let cost = edited(input, input.edits.len(), meter).cost;
    let (mut bits, mut nodes) = (Vec::new(), 0);
    for edits in input.looks() {
        let made = edited(input, edits, &mut Meter::seconds());
        nodes = nodes.max(made.answer.nodes);
        bits.extend(bits_of(made));
    }
    Done { cost, bits, nodes }
}

fn numbers(mut chains: Vec<u32>) -> impl Iterator<Item = u64> {
    chains.sort_unstable();
    chains.into_iter().map(u64::from)
}

pub fn edits(input: &Input, meter: &mut Meter) -> Done {
    all_edits(input, meter, |made| listed(made.answer, &made.rows, &made.chains))
}

/// The same, where all that is compared is which points the trees have.
pub fn edits_for_each(input: &Input, meter: &mut Meter) -> Done {
    all_edits(input, meter, |made| numbers(made.chains).collect())
}

/// The call on a sheet after each edit: a record is added at its end, or is taken out. It is lent four slots a point that is there, and 64.
pub fn tree_at_each(input: &Input, meter: &mut Meter) -> Done {
    let all = sheet(input);
    let looks: Vec<usize> = input.looks().collect();
    let mut work = work(input);
    let mut rows = vec![0; input.slots() * ROW_NUMBERS];
    let mut chains = vec![0; input.particles.len()];
    let (mut sheet, mut there) = (Vec::new(), Vec::new());
    let (cost, bits) = meter.measure(|| {
        let mut bits = Vec::new();
        for (k, &edit) in input.edits.iter().enumerate() {
            match edit {
                Edit::In(i) => {
                    there.push(i as u32);
                    sheet.extend_from_slice(&all[i * RECORD_BYTES..(i + 1) * RECORD_BYTES]);
                }
                Edit::Out(i) => {
                    let place = there.binary_search(&(i as u32)).expect("a point that is there");
                    there.remove(place);
                    sheet.drain(place * RECORD_BYTES..(place + 1) * RECORD_BYTES);
                }
            }
            let slots = 4 * there.len() + 64;
            let chains = &mut chains[..there.len()];
            accepted(raw::tree(&sheet, &mut rows[..slots * ROW_NUMBERS], chains, &mut work[..slots * SLOT_WORDS]).refusal);
            if looks.contains(&(k + 1)) {
                bits.extend(numbers(chains.iter().map(|&c| there[c as usize]).collect()));
            }
        }
        bits
    });
    Done { cost, bits, nodes: 0 }
}

pub fn write(input: &Input, meter: &mut Meter) -> Done {
    let particles = particles(input);
    let mut sheet = vec![0; particles.len() * RECORD_BYTES];
    let (cost, refusal) = meter.measure(|| raw::write(&particles, &mut sheet));
    accepted(refusal);
    Done { cost, bits: input::words(&sheet), nodes: 0 }
}

pub fn read(input: &Input, meter: &mut Meter) -> Done {
    let sheet = sheet(input);
    let mut particles = vec![Particle::default(); input.particles.len()];
    let (cost, refusal) = meter.measure(|| raw::read(&sheet, &mut particles));
    accepted(refusal);
    let bits = particles.iter().flat_map(|p| [p.x.to_bits(), p.y.to_bits(), p.vx.to_bits(), p.vy.to_bits(), p.flags]).collect();
    Done { cost, bits, nodes: 0 }
}

pub fn many_body(input: &Input, meter: &mut Meter) -> Done {
    force(input, meter, |places, buffer, work| raw::many_body(places, buffer, 0, &input.strengths, 1.0, &input.draws, work))
}

pub fn collide(input: &Input, meter: &mut Meter) -> Done {
    force(input, meter, |places, buffer, work| raw::collide(places, buffer, 0, &input.radii, 1.0, 1, &input.draws, work))
}

pub fn link(input: &Input, meter: &mut Meter) -> Done {
    let ends = ends(input);
    // it builds no tree, so it is lent no slots
    force(input, meter, |places, buffer, _| raw::link(places, buffer, 0, &ends, &[], &input.distances, 1, 1.0, &input.draws, &mut []))
}

pub fn tick(input: &Input, meter: &mut Meter) -> Done {
    let (mut sheet, mut work, forces) = (sheet(input), work(input), forces(input));
    let mut alpha = 1f64.to_bits();
    let (cost, counts) = meter.measure(|| {
        raw::tick(&mut sheet, &mut alpha, &forces.words, &forces.numbers, &forces.links, &input.draws, 0.0, COOLING, DECAY, &mut work)
    });
    accepted(counts.refusal);
    Done { cost, bits: whole(counts.draws, alpha, &sheet), nodes: counts.visits }
}

pub fn step(input: &Input, meter: &mut Meter) -> Done {
    let (mut sheet, mut work, forces) = (sheet(input), work(input), forces(input));
    let mut alpha = 1f64.to_bits();
    let (cost, answer) = meter.measure(|| {
        raw::step(
            &mut sheet,
            &mut alpha,
            &forces.words,
            &forces.numbers,
            &forces.links,
            &input.draws,
            0.0,
            COOLING,
            DECAY,
            LEAST,
            TICKS,
            &mut work,
        )
    });
    accepted(answer.refusal);
    let mut bits = vec![answer.ticks];
    bits.extend(whole(answer.draws, alpha, &sheet));
    Done { cost, bits, nodes: answer.visits }
}
