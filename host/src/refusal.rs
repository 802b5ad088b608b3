//! The refusals of document 01 and of the requests after it, a variant for each number.
use crate::raw;
use std::error::Error;
use std::fmt;

/// Why a call was refused. 1 to 5, 10 and 16 change no buffer; 6 to 9 and 15 leave particles, alpha and results as they were and zero all lent work slots.
///
/// ```
/// use talemiku::Refusal;
/// let refusal = talemiku::floor(f64::NAN).unwrap_err();
/// assert_eq!(refusal, Refusal::Coordinate { particle: 0 });
/// assert_eq!((refusal.number(), refusal.place()), (4, 0));
/// ```
///
/// It is shown by its number, its place where it names one, and a sentence. Place 0 of 5 and of 10 may name none (a setting, a centre; a bad length), and the sentence then says so.
///
/// ```
/// # use talemiku::Refusal;
/// assert_eq!(Refusal::TooMany.to_string(), "refused 1: too many particles, links, ticks, iterations, corners or edits");
/// assert_eq!(Refusal::Coordinate { particle: 7 }.to_string(), "refused 4 at 7: a coordinate is out of range");
/// ```
#[derive(Clone, Copy, Debug, PartialEq, Eq, Hash)]
#[non_exhaustive]
pub enum Refusal {
    /// 1: over 4,096 particles, 8,192 links, 4,096 ticks of one step, 64 iterations of one force, 4,096 corners of one outline, or 4,096 edits.
    TooMany,
    /// 2: lent lengths disagree with the counts, a part reaches past its buffer, or an output is too short.
    Lengths,
    /// 3: a link's end is not a particle.
    LinkEnd {
        /// The link's index in its force.
        link: usize,
    },
    /// 4: a coordinate is NaN, infinite or beyond 2^40 from zero.
    Coordinate {
        /// The particle's index, or the edit's; 0 for a floor alone.
        particle: usize,
    },
    /// 5: another number is out of its range, or there is no such kind of force or of edit.
    Number {
        /// The index in its list, of a kind the edit's; 0 for a setting or an outline's centre.
        place: usize,
    },
    /// 6: the tree would pass level 64.
    Level {
        /// The particle that would take it there, or the edit.
        particle: usize,
    },
    /// 7: more nodes than lent slots.
    Slots {
        /// The particle that finds no slot, or the edit.
        particle: usize,
    },
    /// 8: more jiggles needed than draws lent.
    Draws,
    /// 9: a velocity would not be finite, or a coordinate or alpha would lie beyond 2^40.
    Result,
    /// 10: a sheet's length is not a multiple of 40, or a record or a particle has an unknown flag.
    Record {
        /// The record's index, or the particle's; 0 for a bad length.
        record: usize,
    },
    /// 15: an edit removes what isn't there: no insertion before it has that number, or that one is already removed.
    Absent {
        /// The edit's index.
        edit: usize,
    },
    /// 16: the outline doesn't close, as one round a pole doesn't.
    Unclosed,
    /// A number that is none of these: no call refuses by one, but an archive may be newer than this crate.
    Other {
        /// The number.
        number: u64,
        /// The place that came with it.
        place: usize,
    },
}

impl Refusal {
    /// Its number.
    #[must_use]
    pub fn number(self) -> u64 {
        match self {
            Refusal::TooMany => 1,
            Refusal::Lengths => 2,
            Refusal::LinkEnd { .. } => 3,
            Refusal::Coordinate { .. } => 4,
            Refusal::Number { .. } => 5,
            Refusal::Level { .. } => 6,
            Refusal::Slots { .. } => 7,
            Refusal::Draws => 8,
            Refusal::Result => 9,
            Refusal::Record { .. } => 10,
            Refusal::Absent { .. } => 15,
            Refusal::Unclosed => 16,
            Refusal::Other { number, .. } => number,
        }
    }

    /// Its place: 0 where it names none.
    #[must_use]
    pub fn place(self) -> usize {
        match self {
            Refusal::LinkEnd { link } => link,
            Refusal::Coordinate { particle } | Refusal::Level { particle } | Refusal::Slots { particle } => particle,
            Refusal::Number { place } | Refusal::Other { place, .. } => place,
            Refusal::Record { record } => record,
            Refusal::Absent { edit } => edit,
            Refusal::TooMany | Refusal::Lengths | Refusal::Draws | Refusal::Result | Refusal::Unclosed => 0,
        }
    }

    /// Whether it leaves the lent work slots zero: 6 to 9 and 15, met while working.
    #[must_use]
    pub fn clears_work(self) -> bool {
        matches!(self.number(), 6..=9 | 15)
    }

    /// The refusal of an answer, or none for number 0.
    #[must_use]
    pub fn of(raw: raw::Refusal) -> Option<Refusal> {
        let place = raw.place as usize;
        Some(match raw.number {
            0 => return None,
            1 => Refusal::TooMany,
            2 => Refusal::Lengths,
            3 => Refusal::LinkEnd { link: place },
            4 => Refusal::Coordinate { particle: place },
            5 => Refusal::Number { place },
            6 => Refusal::Level { particle: place },
            7 => Refusal::Slots { particle: place },
            8 => Refusal::Draws,
            9 => Refusal::Result,
            10 => Refusal::Record { record: place },
            15 => Refusal::Absent { edit: place },
            16 => Refusal::Unclosed,
            number => Refusal::Other { number, place },
        })
    }

    /// What was done, unless it was refused.
    pub(crate) fn unless<A>(raw: raw::Refusal, done: A) -> Result<A, Refusal> {
        match Refusal::of(raw) {
            None => Ok(done),
            Some(refusal) => Err(refusal),
        }
    }
}

impl fmt::Display for Refusal {
    fn fmt(&self, f: &mut fmt::Formatter<'_>) -> fmt::Result {
        let (named, why) = match self {
            Refusal::TooMany => (false, "too many particles, links, ticks, iterations, corners or edits"),
            Refusal::Lengths => (false, "lent lengths disagree with the counts"),
            Refusal::LinkEnd { .. } => (true, "a link's end is not a particle"),
            Refusal::Coordinate { .. } => (true, "a coordinate is out of range"),
            Refusal::Number { place: 0 } => (false, "a setting, or the first number of a list, is out of its range"),
            Refusal::Number { .. } => (true, "a number is out of its range"),
            Refusal::Level { .. } => (true, "the tree would pass level 64"),
            Refusal::Slots { .. } => (true, "more nodes than lent slots"),
            Refusal::Draws => (false, "more jiggles needed than lent"),
            Refusal::Result => (false, "a result out of range"),
            Refusal::Record { record: 0 } => (false, "the length is no multiple of 40, or the first record has an unknown flag"),
            Refusal::Record { .. } => (true, "an unknown flag"),
            Refusal::Absent { .. } => (true, "what it removes isn't there"),
            Refusal::Unclosed => (false, "the outline doesn't close"),
            Refusal::Other { .. } => (true, "a refusal that is not known here"),
        };
        let (number, place) = (self.number(), self.place());
        if named {
            write!(f, "refused {number} at {place}: {why}")
        } else {
            write!(f, "refused {number}: {why}")
        }
    }
}

impl Error for Refusal {}
