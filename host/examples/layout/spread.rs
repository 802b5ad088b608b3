//! Spreads the labels of a chart by `step`, in portions, so that a long run can say how far it is.
use crate::chart::{Chart, GREATEST};
use talemiku::{particles_of, step, Force, Forces, Lent, Links, Refusal, Settings, SLOT_WORDS};

/// How many ticks it takes alpha to come down from 1 to `LEAST`.
pub const TICKS: u64 = 300;
const LEAST: f64 = 0.001;
const SETTINGS: Settings = Settings { target: 0.0, alpha_decay: 0.0228, velocity_decay: 0.3 };

/// How many ticks go by between two chances to say how far it is.
const PORTION: u64 = 5;

/// More labels are refused, so more isn't lent.
pub const MOST: usize = 4096;

/// How many draws a label are lent to a portion at first.
const FEW: usize = 16;

/// How far apart labels are kept, and linked ones drawn together, for radii that add up to 1.
const ROOM: f64 = 1.06;
const REACH: f64 = 1.22;

/// How strongly a label of radius 1 pushes all others away: just so that labels in one place part.
const PUSH: f64 = 0.025;

/// A chart after its ticks.
pub struct Spread {
    pub sheet: Vec<u8>,
    pub alpha: f64,
    pub ticks: u64,
    pub visits: u64,
    pub draws: usize,
}

/// Work slots that suffice for the tree of so many labels.
pub fn slots(labels: usize) -> usize {
    1 + 64 * labels.min(MOST)
}

/// Spreads the labels, telling `progress` the ticks done after each portion.
///
/// What a tick hands on to the next is the sheet, alpha and the draws not yet used. Each portion takes all three where the last one left them, and the checks
/// before it let pass whatever a tick leaves. So the result is that of a single step; host/tests/tick.rs holds the two to each other.
/// A tick that is refused, be it the first or a later one, refuses the chart, unless it only wanted more draws: it has changed nothing, and is run again with twice as many.
/// That ends, since a tick never wants more than two for each node that is handed out and for each link.
pub fn spread(chart: &Chart, mut progress: impl FnMut(u64)) -> Result<Spread, Refusal> {
    let labels = chart.radii.len();
    let (mut draws, mut most) = (Draws::new(), FEW * (1 + labels.min(MOST)));
    let mut work = vec![0; slots(labels) * SLOT_WORDS];
    let forces = forces(chart);
    let mut done = Spread { sheet: chart.sheet.clone(), alpha: 1.0, ticks: 0, visits: 0, draws: 0 };
    loop {
        let lent = Lent { draws: draws.next(most), work: &mut work };
        let portion = step(&mut done.sheet, &mut done.alpha, &forces, SETTINGS, LEAST, PORTION.min(TICKS - done.ticks), lent)?;
        match portion.stop {
            Some(Refusal::Draws) => most *= 2,
            Some(refusal) => return Err(refusal),
            None => {}
        }
        draws.pass(portion.counts.draws);
        done.ticks += portion.ticks;
        done.visits += portion.counts.visits;
        done.draws += portion.counts.draws;
        if portion.finished || done.ticks == TICKS {
            return Ok(done);
        }
        progress(done.ticks);
    }
}

/// What moves the labels, by slot: all push each other away a little, linked ones come together, discs are parted, and the middle stays where it was.
fn forces(chart: &Chart) -> Forces {
    let charges: Vec<f64> = chart.radii.iter().map(|radius| -PUSH * radius).collect();
    let room: Vec<f64> = chart.radii.iter().map(|radius| (ROOM * radius).min(GREATEST)).collect();
    let reach = |ends: &[u32]| REACH * (chart.radii[ends[0] as usize] + chart.radii[ends[1] as usize]);
    let distances: Vec<f64> = chart.links.chunks_exact(2).map(reach).collect();
    let (x, y) = middle(&chart.sheet);
    let mut slots = [None; 8];
    slots[0] = Some(Force::ManyBody { strengths: &charges });
    slots[1] = Some(Force::Link(Links { ends: &chart.links, strengths: &[], distances: &distances, iterations: 1 }));
    slots[2] = Some(Force::Collide { radii: &room, strength: 0.9, iterations: 3 });
    slots[3] = Some(Force::Center { x, y, strength: 1.0 });
    Forces::new(chart.radii.len(), &slots)
}

/// The middle of all places; of none, or of places that will be refused, no matter where.
fn middle(sheet: &[u8]) -> (f64, f64) {
    let places = particles_of(sheet);
    let share = 1.0 / places.len().max(1) as f64;
    let finite = |sum: f64| if sum.is_finite() { sum * share } else { 0.0 };
    (finite(places.iter().map(|p| p.x).sum()), finite(places.iter().map(|p| p.y).sum()))
}

/// Jiggles, as small as the Rust's and the same on every run, without end: those that aren't used yet and have been made already, and how the next is made.
struct Draws {
    made: Vec<f64>,
    state: u32,
}

impl Draws {
    fn new() -> Draws {
        Draws { made: Vec::new(), state: 1 }
    }

    /// At least so many.
    fn next(&mut self, count: usize) -> &[f64] {
        while self.made.len() < count {
            self.state = self.state.wrapping_mul(1_664_525).wrapping_add(1_013_904_223);
            self.made.push((f64::from(self.state) / 4_294_967_296.0 - 0.5) * 1e-6);
        }
        &self.made
    }

    /// So many are used.
    fn pass(&mut self, count: usize) {
        self.made.drain(..count);
    }
}
