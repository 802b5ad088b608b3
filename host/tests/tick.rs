//! Tick and step through the archive, refusals, and every lent byte.
mod fence;

use fence::Fenced;
use talemiku::{particles_of, sheet_of, step, tick, Counts, Force, Forces, Lent, Links, Particle, Refusal, Settings, Steps, SLOT_WORDS};

const WORK: u64 = 0x7ff4_0000_dead_beef;
/// Alpha stays as it is.
const STILL: Settings = Settings { target: 0.0, alpha_decay: 0.0, velocity_decay: 0.5 };

/// What a call leaves: its reply, the particles, alpha.
type Left<A> = (A, Vec<Particle>, f64);

struct Sheet {
    bytes: Vec<u8>,
    alpha: f64,
    slots: usize,
    draws: Vec<f64>,
}

fn sheet(particles: &[Particle], draws: &[f64]) -> Sheet {
    Sheet { bytes: sheet_of(particles), alpha: 1.0, slots: 9, draws: draws.to_vec() }
}

fn still(points: &[[f64; 2]]) -> Vec<Particle> {
    points.iter().map(|p| Particle::at(p[0], p[1])).collect()
}

impl Sheet {
    /// Calls and looks at all that was lent.
    fn call<A>(&self, call: impl FnOnce(&mut [u8], &mut f64, Lent<'_>) -> Result<A, Refusal>) -> Result<Left<A>, Refusal> {
        let work = vec![WORK; self.slots * SLOT_WORDS + 1];
        let zero = vec![0; work.len()];
        let mut bytes = Fenced::new(&self.bytes, 0xfe);
        let mut lent_work = Fenced::new(&work, WORK);
        let mut alpha = self.alpha;
        let answer = call(bytes.part(), &mut alpha, Lent { draws: &self.draws, work: lent_work.part() });
        let bytes_now = bytes.now().expect("beside the sheet");
        let work_now = lent_work.now().expect("beside the work");
        match answer {
            Ok(done) => {
                assert_eq!(work_now, zero);
                Ok((done, particles_of(bytes_now), alpha))
            }
            Err(refusal) => {
                assert_eq!(bytes_now, self.bytes, "sheet after {refusal}");
                assert_eq!(alpha.to_bits(), self.alpha.to_bits(), "alpha after {refusal}");
                assert_eq!(work_now, if refusal.clears_work() { &zero } else { &work }, "work after {refusal}");
                Err(refusal)
            }
        }
    }

    fn tick(&self, forces: &Forces, settings: Settings) -> Result<Left<Counts>, Refusal> {
        self.call(|bytes, alpha, lent| tick(bytes, alpha, forces, settings, lent))
    }

    fn step(&self, forces: &Forces, least: f64, budget: u64) -> Result<Left<Steps>, Refusal> {
        self.call(|bytes, alpha, lent| step(bytes, alpha, forces, STILL, least, budget, lent))
    }
}

/// These forces in the slots from 0 on.
fn slots<'a>(forces: &[Force<'a>]) -> [Option<Force<'a>>; 8] {
    let mut slots = [None; 8];
    for (slot, force) in slots.iter_mut().zip(forces) {
        *slot = Some(*force);
    }
    slots
}

fn forces(particles: usize, list: &[Force<'_>]) -> Forces {
    Forces::new(particles, &slots(list))
}

const HOME: Force<'static> = Force::Center { x: 0.0, y: 0.0, strength: 1.0 };

#[test]
fn t9_t11_and_t12_in_one_tick() {
    // Center first; ManyBody pushes apart by 5; Link draws together; then the closing move
    let charges = Force::ManyBody { strengths: &[-30.0, -30.0] };
    let moved = sheet(&still(&[[0.0, 0.0], [3.0, 3.0]]), &[]).tick(&forces(2, &[HOME, charges]), STILL);
    let place = 1.5 + 5.0;
    let end = |sign: f64| Particle { vx: 2.5 * sign, vy: 2.5 * sign, ..Particle::at(place * sign, place * sign) };
    assert_eq!(moved, Ok((Counts { visits: 6, draws: 0 }, vec![end(-1.0), end(1.0)], 1.0)));
    let link = Force::Link(Links { ends: &[0, 1], strengths: &[], distances: &[0.0], iterations: 1 });
    let tied = sheet(&still(&[[0.0, 0.0], [3.0, 4.0]]), &[]).tick(&forces(2, &[link]), STILL);
    let met = |vx: f64, vy: f64| Particle { vx, vy, ..Particle::at(1.5, 2.0) };
    assert_eq!(tied, Ok((Counts { visits: 0, draws: 0 }, vec![met(0.75, 1.0), met(-0.75, -1.0)], 1.0)));
}

#[test]
fn t10_in_a_tick() {
    let discs = Force::Collide { radii: &[1.0, 1.0], strength: 1.0, iterations: 1 };
    let side = still(&[[0.0, 0.0], [1.0, 0.0]]);
    let parted = sheet(&side, &[0.0]).tick(&forces(2, &[discs]), STILL);
    let end = |x: f64, vx: f64| Particle { vx, ..Particle::at(x, 0.0) };
    assert_eq!(parted, Ok((Counts { visits: 6, draws: 1 }, vec![end(-0.5, -0.25), end(1.5, 0.25)], 1.0)));
    assert_eq!(sheet(&side, &[]).tick(&forces(2, &[discs]), STILL), Err(Refusal::Draws));
    assert_eq!(Sheet { slots: 2, ..sheet(&side, &[0.0]) }.tick(&forces(2, &[discs]), STILL), Err(Refusal::Slots { particle: 1 }));
}

#[test]
fn a_held_axis_returns_to_tick_entry() {
    let held = Particle { flags: Particle::FIXED_X, ..Particle::at(2.0, 4.0) };
    let moved = sheet(&[held], &[]).tick(&forces(1, &[HOME]), STILL);
    assert_eq!(moved, Ok((Counts { visits: 0, draws: 0 }, vec![Particle { y: 0.0, ..held }], 1.0)));
}

#[test]
fn alpha_moves() {
    let hot = Settings { target: 1e12, alpha_decay: 2.0, velocity_decay: 0.5 };
    assert_eq!(sheet(&[], &[]).tick(&forces(0, &[]), hot), Err(Refusal::Result));
    let cool = Settings { target: 0.0, alpha_decay: 0.5, velocity_decay: 0.5 };
    assert_eq!(sheet(&[], &[]).tick(&forces(0, &[]), cool), Ok((Counts { visits: 0, draws: 0 }, vec![], 0.5)));
    let odd = Sheet { alpha: f64::from_bits(0xfff4_0000_0000_0bad), ..sheet(&[], &[]) };
    assert_eq!(odd.tick(&forces(0, &[]), cool), Err(Refusal::Number { place: 0 }));
}

#[test]
fn refused_before_the_first_stage() {
    let pair = sheet(&still(&[[0.0, 0.0], [3.0, 4.0]]), &[]);
    let short = Force::ManyBody { strengths: &[1.0] };
    let long = Force::ManyBody { strengths: &[1.0; 3] };
    assert_eq!(pair.tick(&forces(2, &[short]), STILL), Err(Refusal::Lengths));
    // the totals agree, so the slots' own lists are what disagrees: only `pack` lets that through
    assert_eq!(pair.tick(&forces(2, &[short, long]), STILL), Err(Refusal::Lengths));
    assert!(pair.tick(&Forces::pack(&slots(&[short, long])), STILL).is_ok());
    let ends = Force::Link(Links { ends: &[0, 1, 0, 2], strengths: &[], distances: &[0.0; 2], iterations: 1 });
    assert_eq!(pair.tick(&forces(2, &[ends]), STILL), Err(Refusal::LinkEnd { link: 1 }));
    let often = Force::Collide { radii: &[], strength: 1.0, iterations: 65 };
    assert_eq!(pair.tick(&forces(2, &[short, often]), STILL), Err(Refusal::TooMany));
    let mut unknown = forces(2, &[]);
    unknown.words[7] = 9;
    assert_eq!(pair.tick(&unknown, STILL), Err(Refusal::Number { place: 0 }));
    let torn = Sheet { bytes: vec![0; 81], ..sheet(&[], &[]) };
    assert_eq!(torn.tick(&forces(2, &[short]), STILL), Err(Refusal::Record { record: 0 }));
}

#[test]
fn a_step_ends_at_a_refused_tick() {
    let twice = still(&[[0.0, 0.0]; 2]);
    let charges = [Force::ManyBody { strengths: &[0.0, 0.0] }];
    let ended = sheet(&twice, &[0.5; 5]).step(&forces(2, &charges), 0.001, 3);
    let steps = Steps { ticks: 1, finished: false, counts: Counts { visits: 2, draws: 4 }, stop: Some(Refusal::Draws) };
    assert_eq!(ended, Ok((steps, twice.clone(), 1.0)));
    let idle = Steps { ticks: 0, finished: true, counts: Counts { visits: 0, draws: 0 }, stop: None };
    assert_eq!(sheet(&twice, &[]).step(&forces(2, &charges), 1.0, 3), Ok((idle, twice.clone(), 1.0)));
    assert_eq!(sheet(&twice, &[]).step(&forces(2, &charges), 1.0, 4097), Err(Refusal::TooMany));
    assert_eq!(sheet(&twice, &[2.0]).step(&forces(2, &charges), f64::NAN, 1), Err(Refusal::Number { place: 0 }));
}

#[test]
fn a_step_in_portions_ends_as_one_step() {
    // two are held at one x, so that draws are used all along
    let mut places = still(&[[0.0, 0.0], [1.0, 0.0], [1.0, 0.5], [0.5, 2.0], [-1.0, 1.0]]);
    places[1].flags = Particle::FIXED_X;
    places[2].flags = Particle::FIXED_X;
    let discs = Force::Collide { radii: &[1.0; 5], strength: 0.7, iterations: 2 };
    let forces = forces(5, &[Force::ManyBody { strengths: &[-2.0; 5] }, discs, HOME]);
    let settings = Settings { target: 0.0, alpha_decay: 0.1, velocity_decay: 0.6 };
    let draws: Vec<f64> = (0..200).map(|k| f64::from(k * 37 % 101 - 50) * 1e-3).collect();
    // draws lent to a portion; a tick that wants more has changed nothing, and is run again with twice as many
    let run = |(portion, mut most): (u64, usize)| {
        let (mut sheet, mut alpha, mut work) = (sheet_of(&places), 1.0, [0; 400 * SLOT_WORDS]);
        let (mut ticks, mut visits, mut used, mut finished) = (0, 0, 0, false);
        while !finished && ticks < 100 {
            let lent = Lent { draws: &draws[used..draws.len().min(used + most)], work: &mut work };
            let done = step(&mut sheet, &mut alpha, &forces, settings, 0.01, portion.min(100 - ticks), lent).expect("not refused");
            match done.stop {
                Some(Refusal::Draws) => most *= 2,
                stop => assert_eq!(stop, None),
            }
            ticks += done.ticks;
            visits += done.counts.visits;
            used += done.counts.draws;
            finished = done.finished;
        }
        (sheet, alpha.to_bits(), ticks, visits, used, finished)
    };
    let whole = run((100, 200));
    assert!(whole.5 && whole.2 > 14 && whole.4 > 20, "{whole:?}");
    for portions in [(1, 200), (7, 200), (14, 200), (100, 1), (7, 3)] {
        assert_eq!(run(portions), whole, "{portions:?}");
    }
}
