//! The force slots of a tick, packed as the archive takes them.
use crate::Links;

/// How many force slots a tick has.
pub const FORCE_SLOTS: usize = 8;

/// How many words a slot's entry takes: kind, iterations, links, link strengths and three settings.
const ENTRY_WORDS: usize = 7;

/// How many words all entries take.
pub const FORCE_WORDS: usize = FORCE_SLOTS * ENTRY_WORDS;

/// A force in a slot.
#[derive(Clone, Copy, Debug)]
pub enum Force<'a> {
    /// Particles push apart, or pull.
    ManyBody {
        /// A strength a particle.
        strengths: &'a [f64],
    },
    /// Discs are parted where they overlap.
    Collide {
        /// A radius a particle.
        radii: &'a [f64],
        /// How much of an overlap goes.
        strength: f64,
        /// How often.
        iterations: usize,
    },
    /// Pairs are drawn to a distance.
    Link(Links<'a>),
    /// All particles are moved to a middle.
    Center {
        /// The middle.
        x: f64,
        /// The middle.
        y: f64,
        /// How much of the way.
        strength: f64,
    },
}

/// Eight force slots: an entry of seven words each, and their lists end to end in slot order.
#[derive(Clone, Debug, PartialEq)]
pub struct Forces {
    /// The entries.
    pub words: [u64; FORCE_WORDS],
    /// ManyBody's strengths, Collide's radii, Link's strengths and then its distances.
    pub numbers: Vec<f64>,
    /// Link's ends.
    pub links: Vec<u32>,
}

impl Force<'_> {
    fn entry(&self) -> [u64; ENTRY_WORDS] {
        match *self {
            Force::ManyBody { .. } => [1, 0, 0, 0, 0, 0, 0],
            Force::Collide { strength, iterations, .. } => [2, iterations as u64, 0, 0, strength.to_bits(), 0, 0],
            Force::Link(l) => [3, l.iterations as u64, l.ends.len() as u64 / 2, l.strengths.len() as u64, 0, 0, 0],
            Force::Center { x, y, strength } => [4, 0, 0, 0, x.to_bits(), y.to_bits(), strength.to_bits()],
        }
    }

    /// Whether its lists have the lengths that its entry asks for.
    fn fits(&self, particles: usize) -> bool {
        match *self {
            Force::ManyBody { strengths: list } | Force::Collide { radii: list, .. } => list.len() == particles,
            Force::Link(l) => l.ends.len() % 2 == 0 && l.distances.len() == l.ends.len() / 2,
            Force::Center { .. } => true,
        }
    }
}

impl Forces {
    /// The slots as they are, whatever their lists' lengths: lent to a tick, each slot takes as much of the numbers as its entry asks for.
    #[must_use]
    pub fn pack(slots: &[Option<Force<'_>>; FORCE_SLOTS]) -> Forces {
        let mut packed = Forces { words: [0; FORCE_WORDS], numbers: Vec::new(), links: Vec::new() };
        for (entry, force) in packed.words.chunks_exact_mut(ENTRY_WORDS).zip(slots) {
            let force = match force {
                Some(force) => force,
                None => continue,
            };
            entry.copy_from_slice(&force.entry());
            match *force {
                Force::ManyBody { strengths: list } | Force::Collide { radii: list, .. } => packed.numbers.extend(list),
                Force::Link(l) => {
                    packed.numbers.extend(l.strengths);
                    packed.numbers.extend(l.distances);
                    packed.links.extend(l.ends);
                }
                Force::Center { .. } => {}
            }
        }
        packed
    }

    /// The slots for a sheet of so many particles. Where a list has a wrong length the totals are made to disagree, so that no slot takes
    /// another's numbers: the tick refuses by 2, in its turn.
    ///
    /// ```
    /// use talemiku::{Force, Forces, Links};
    /// let charges = [-30.0; 2];
    /// let links = Links { ends: &[0, 1], strengths: &[], distances: &[4.0], iterations: 1 };
    /// let mut slots = [None; 8];
    /// slots[0] = Some(Force::ManyBody { strengths: &charges });
    /// slots[1] = Some(Force::Link(links));
    /// slots[2] = Some(Force::Center { x: 0.0, y: 0.0, strength: 1.0 });
    /// let forces = Forces::new(2, &slots);
    /// assert_eq!(forces.numbers, [-30.0, -30.0, 4.0]);
    /// ```
    #[must_use]
    pub fn new(particles: usize, slots: &[Option<Force<'_>>; FORCE_SLOTS]) -> Forces {
        let mut packed = Forces::pack(slots);
        if !slots.iter().flatten().all(|force| force.fits(particles)) {
            // an end without its other is never right
            packed.links.resize(packed.links.len() / 2 * 2 + 1, 0);
        }
        packed
    }
}
