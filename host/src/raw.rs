//! The entries of the archive with slices for pointers and lengths, and answers as they come. All unsafe code is here.
//!
//! These declarations have the names, the order and the types of crates/talemiku/src and crates/rules/src/lib.rt. A slice passes as a pointer and a length, in order; an array
//! behind a reference as a pointer alone. The linker knows nothing of types, so what stands here is believed: host/declared holds it to these
//! sources, as text, and how the structs lie in memory is tested as they are compiled.
//!
//! Why each call is safe: a pointer and a length come from one slice, borrowed for the call, and `&mut` where the entry may write. The entries are proved to stay within
//! these lengths and to end, whatever the contents; they keep no pointer and don't unwind.
#![allow(unsafe_code)]
// The entries have as many parameters as they need; what the crate offers above them groups these.
#![allow(clippy::too_many_arguments)]

use crate::FORCE_WORDS;

/// A refusal's number and its place; number 0 where nothing is refused.
#[must_use]
#[repr(C)]
#[derive(Clone, Copy, Debug, PartialEq, Eq)]
pub struct Refusal {
    /// 1 to 10, 15, 16, or 0.
    pub number: u64,
    /// An index, or 0.
    pub place: u64,
}

/// A cell: four numbers.
#[repr(C)]
#[derive(Clone, Copy, Debug, PartialEq)]
pub struct Extent {
    /// Least x.
    pub x0: f64,
    /// Least y.
    pub y0: f64,
    /// The end of x, outside.
    pub x1: f64,
    /// The end of y, outside.
    pub y1: f64,
}

/// A particle, in the order of its 40-byte record.
#[repr(C)]
#[derive(Clone, Copy, Debug, Default, PartialEq)]
pub struct Particle {
    /// Where it is.
    pub x: f64,
    /// Where it is.
    pub y: f64,
    /// How fast it moves along x.
    pub vx: f64,
    /// How fast it moves along y.
    pub vy: f64,
    /// Bit 0 for `with_fixed_x`, bit 1 for `with_fixed_y`; others are refused.
    pub flags: u64,
}

/// What a floor is, or the refusal with the value 0.
#[must_use]
#[repr(C)]
#[derive(Clone, Copy, Debug, PartialEq, Eq)]
pub struct FloorAnswer {
    /// Number 0, or 4.
    pub refusal: Refusal,
    /// The floor.
    pub value: i64,
}

/// What is known of a tree beside its lists.
#[must_use]
#[repr(C)]
#[derive(Clone, Copy, Debug, PartialEq)]
pub struct TreeAnswer {
    /// Number 0, or what was refused.
    pub refusal: Refusal,
    /// How many nodes there are.
    pub nodes: u64,
    /// The root's cell.
    pub extent: Extent,
}

/// What a force or a tick counted.
#[must_use]
#[repr(C)]
#[derive(Clone, Copy, Debug, PartialEq, Eq)]
pub struct Counts {
    /// Number 0, or what was refused.
    pub refusal: Refusal,
    /// Nodes handed out by parent-first walks.
    pub visits: u64,
    /// Draws used.
    pub draws: u64,
}

/// What a step did.
#[must_use]
#[repr(C)]
#[derive(Clone, Copy, Debug, PartialEq, Eq)]
pub struct StepAnswer {
    /// The step's own refusal (1 to 5 and 10), or that of the tick that ended it (6 to 9), or number 0.
    pub refusal: Refusal,
    /// Ticks done.
    pub ticks: u64,
    /// 1 where alpha is at most `alpha_min`, else 0.
    pub finished: u64,
    /// Nodes handed out in all these ticks.
    pub visits: u64,
    /// Draws used in all these ticks.
    pub draws: u64,
}

/// How the structs lie in memory, tested as they are compiled: each field is a word of eight bytes, one after another in their order. So a struct whose fields hold 1, 2, 3 and
/// so on is the words 1, 2, 3 and so on, and nothing beside them.
// older compilers don't see what constants without a name use
#[allow(dead_code)]
mod layout {
    use super::{Counts, Extent, FloorAnswer, Particle, Refusal, StepAnswer, TreeAnswer};
    use std::mem::{align_of, transmute};

    union Word {
        bits: u64,
        number: f64,
    }

    /// The number whose bits are these. `f64::from_bits` can't stand in a constant before Rust 1.83.
    const fn number(bits: u64) -> f64 {
        // SAFETY: every pattern of bits is an f64.
        unsafe { Word { bits }.number }
    }

    macro_rules! words {
        ($words:literal, $name:ident, $value:expr) => {
            const _: () = {
                assert!(align_of::<$name>() == 8);
                // SAFETY: every pattern of bits is a u64; other sizes don't compile, nor, in a constant, padding that is read.
                let words: [u64; $words] = unsafe { transmute($value) };
                let mut k = 0;
                while k < $words {
                    assert!(words[k] == k as u64 + 1);
                    k += 1;
                }
            };
        };
    }

    const REFUSAL: Refusal = Refusal { number: 1, place: 2 };
    words!(2, Refusal, REFUSAL);
    words!(4, Extent, Extent { x0: number(1), y0: number(2), x1: number(3), y1: number(4) });
    words!(5, Particle, Particle { x: number(1), y: number(2), vx: number(3), vy: number(4), flags: 5 });
    words!(3, FloorAnswer, FloorAnswer { refusal: REFUSAL, value: 3 });
    words!(
        7,
        TreeAnswer,
        TreeAnswer { refusal: REFUSAL, nodes: 3, extent: Extent { x0: number(4), y0: number(5), x1: number(6), y1: number(7) } }
    );
    words!(4, Counts, Counts { refusal: REFUSAL, visits: 3, draws: 4 });
    words!(6, StepAnswer, StepAnswer { refusal: REFUSAL, ticks: 3, finished: 4, visits: 5, draws: 6 });
}

mod entry {
    use super::{Counts, FloorAnswer, Particle, Refusal, StepAnswer, TreeAnswer, FORCE_WORDS};

    // an archive may lack some
    #[allow(dead_code)]
    extern "C" {
        pub fn talemiku_floor(x: f64) -> FloorAnswer;

        pub fn talemiku_root(bits: u64) -> u64;

        pub fn talemiku_tree(
            records: *const u8,
            records_len: usize,
            rows: *mut u32,
            rows_len: usize,
            chains: *mut u32,
            chains_len: usize,
            work: *mut u64,
            work_len: usize,
        ) -> TreeAnswer;

        pub fn talemiku_many_body(
            places: *const f64,
            places_len: usize,
            buffer: *mut u8,
            buffer_len: usize,
            start: usize,
            strengths: *const f64,
            strengths_len: usize,
            alpha: f64,
            draws: *const f64,
            draws_len: usize,
            work: *mut u64,
            work_len: usize,
        ) -> Counts;

        pub fn talemiku_collide(
            places: *const f64,
            places_len: usize,
            buffer: *mut u8,
            buffer_len: usize,
            start: usize,
            radii: *const f64,
            radii_len: usize,
            strength: f64,
            iterations: usize,
            draws: *const f64,
            draws_len: usize,
            work: *mut u64,
            work_len: usize,
        ) -> Counts;

        pub fn talemiku_link(
            places: *const f64,
            places_len: usize,
            buffer: *mut u8,
            buffer_len: usize,
            start: usize,
            links: *const u32,
            links_len: usize,
            strengths: *const f64,
            strengths_len: usize,
            distances: *const f64,
            distances_len: usize,
            iterations: usize,
            alpha: f64,
            draws: *const f64,
            draws_len: usize,
            work: *mut u64,
            work_len: usize,
        ) -> Counts;

        pub fn talemiku_center(particles: *mut Particle, particles_len: usize, x: f64, y: f64, strength: f64) -> Refusal;

        pub fn talemiku_apply_velocities(particles: *mut Particle, particles_len: usize, decay: f64) -> Refusal;

        pub fn talemiku_write(particles: *const Particle, particles_len: usize, sheet: *mut u8, sheet_len: usize) -> Refusal;

        pub fn talemiku_read(sheet: *const u8, sheet_len: usize, particles: *mut Particle, particles_len: usize) -> Refusal;

        pub fn talemiku_tick(
            sheet: *mut u8,
            sheet_len: usize,
            alpha: *mut u64,
            words: *const [u64; FORCE_WORDS],
            numbers: *const f64,
            numbers_len: usize,
            links: *const u32,
            links_len: usize,
            draws: *const f64,
            draws_len: usize,
            target: f64,
            alpha_decay: f64,
            velocity_decay: f64,
            work: *mut u64,
            work_len: usize,
        ) -> Counts;

        pub fn talemiku_step(
            sheet: *mut u8,
            sheet_len: usize,
            alpha: *mut u64,
            words: *const [u64; FORCE_WORDS],
            numbers: *const f64,
            numbers_len: usize,
            links: *const u32,
            links_len: usize,
            draws: *const f64,
            draws_len: usize,
            target: f64,
            alpha_decay: f64,
            velocity_decay: f64,
            alpha_min: f64,
            budget: u64,
            work: *mut u64,
            work_len: usize,
        ) -> StepAnswer;

        pub fn talemiku_unwrap(corners: *const i64, corners_len: usize, centre: i64, unwrapped: *mut i64, unwrapped_len: usize) -> Refusal;

        pub fn talemiku_edits(
            edits: *const u64,
            edits_len: usize,
            rows: *mut u32,
            rows_len: usize,
            chains: *mut u32,
            chains_len: usize,
            work: *mut u64,
            work_len: usize,
        ) -> TreeAnswer;
    }
}

/// The floor as a whole number, or refusal 4.
pub fn floor(x: f64) -> FloorAnswer {
    // SAFETY: a number goes in, and the struct that comes out is the entry's.
    unsafe { entry::talemiku_floor(x) }
}

/// The correctly rounded square root, from bits to bits.
#[must_use]
pub fn root(bits: u64) -> u64 {
    // SAFETY: a word goes in, and one comes out.
    unsafe { entry::talemiku_root(bits) }
}

/// The tree of a sheet.
pub fn tree(records: &[u8], rows: &mut [u32], chains: &mut [u32], work: &mut [u64]) -> TreeAnswer {
    // SAFETY: each pointer is followed by the length of its own slice, and what is `&mut` overlaps no other; the entry stays within them.
    unsafe {
        entry::talemiku_tree(
            records.as_ptr(),
            records.len(),
            rows.as_mut_ptr(),
            rows.len(),
            chains.as_mut_ptr(),
            chains.len(),
            work.as_mut_ptr(),
            work.len(),
        )
    }
}

/// ManyBody on plain lists.
pub fn many_body(
    places: &[f64],
    buffer: &mut [u8],
    start: usize,
    strengths: &[f64],
    alpha: f64,
    draws: &[f64],
    work: &mut [u64],
) -> Counts {
    // SAFETY: each pointer is followed by the length of its own slice, and what is `&mut` overlaps no other; the entry stays within them.
    unsafe {
        entry::talemiku_many_body(
            places.as_ptr(),
            places.len(),
            buffer.as_mut_ptr(),
            buffer.len(),
            start,
            strengths.as_ptr(),
            strengths.len(),
            alpha,
            draws.as_ptr(),
            draws.len(),
            work.as_mut_ptr(),
            work.len(),
        )
    }
}

/// Collide on plain lists.
pub fn collide(
    places: &[f64],
    buffer: &mut [u8],
    start: usize,
    radii: &[f64],
    strength: f64,
    iterations: usize,
    draws: &[f64],
    work: &mut [u64],
) -> Counts {
    // SAFETY: each pointer is followed by the length of its own slice, and what is `&mut` overlaps no other; the entry stays within them.
    unsafe {
        entry::talemiku_collide(
            places.as_ptr(),
            places.len(),
            buffer.as_mut_ptr(),
            buffer.len(),
            start,
            radii.as_ptr(),
            radii.len(),
            strength,
            iterations,
            draws.as_ptr(),
            draws.len(),
            work.as_mut_ptr(),
            work.len(),
        )
    }
}

/// Link on plain lists.
pub fn link(
    places: &[f64],
    buffer: &mut [u8],
    start: usize,
    links: &[u32],
    strengths: &[f64],
    distances: &[f64],
    iterations: usize,
    alpha: f64,
    draws: &[f64],
    work: &mut [u64],
) -> Counts {
    // SAFETY: each pointer is followed by the length of its own slice, and what is `&mut` overlaps no other; the entry stays within them.
    unsafe {
        entry::talemiku_link(
            places.as_ptr(),
            places.len(),
            buffer.as_mut_ptr(),
            buffer.len(),
            start,
            links.as_ptr(),
            links.len(),
            strengths.as_ptr(),
            strengths.len(),
            distances.as_ptr(),
            distances.len(),
            iterations,
            alpha,
            draws.as_ptr(),
            draws.len(),
            work.as_mut_ptr(),
            work.len(),
        )
    }
}

/// Center on a list of particles.
pub fn center(particles: &mut [Particle], x: f64, y: f64, strength: f64) -> Refusal {
    // SAFETY: the pointer is followed by the length of its slice; any words are particles, so the entry may write what it likes.
    unsafe { entry::talemiku_center(particles.as_mut_ptr(), particles.len(), x, y, strength) }
}

/// The closing move on a list of particles.
pub fn apply_velocities(particles: &mut [Particle], decay: f64) -> Refusal {
    // SAFETY: the pointer is followed by the length of its slice; any words are particles, so the entry may write what it likes.
    unsafe { entry::talemiku_apply_velocities(particles.as_mut_ptr(), particles.len(), decay) }
}

/// The records of particles, into the first bytes of a sheet.
pub fn write(particles: &[Particle], sheet: &mut [u8]) -> Refusal {
    // SAFETY: each pointer is followed by the length of its own slice, and what is `&mut` overlaps no other; the entry stays within them.
    unsafe { entry::talemiku_write(particles.as_ptr(), particles.len(), sheet.as_mut_ptr(), sheet.len()) }
}

/// The particles of a sheet, into the first places of a list.
pub fn read(sheet: &[u8], particles: &mut [Particle]) -> Refusal {
    // SAFETY: as in `write`; any words are particles, so the entry may write what it likes.
    unsafe { entry::talemiku_read(sheet.as_ptr(), sheet.len(), particles.as_mut_ptr(), particles.len()) }
}

/// One tick of a sheet; alpha as its bits.
pub fn tick(
    sheet: &mut [u8],
    alpha: &mut u64,
    words: &[u64; FORCE_WORDS],
    numbers: &[f64],
    links: &[u32],
    draws: &[f64],
    target: f64,
    alpha_decay: f64,
    velocity_decay: f64,
    work: &mut [u64],
) -> Counts {
    // SAFETY: as in `tree`; alpha is one word and those of the force slots are FORCE_WORDS, as the entry takes them.
    unsafe {
        entry::talemiku_tick(
            sheet.as_mut_ptr(),
            sheet.len(),
            alpha,
            words,
            numbers.as_ptr(),
            numbers.len(),
            links.as_ptr(),
            links.len(),
            draws.as_ptr(),
            draws.len(),
            target,
            alpha_decay,
            velocity_decay,
            work.as_mut_ptr(),
            work.len(),
        )
    }
}

/// Ticks of a sheet within a budget; alpha as its bits.
pub fn step(
    sheet: &mut [u8],
    alpha: &mut u64,
    words: &[u64; FORCE_WORDS],
    numbers: &[f64],
    links: &[u32],
    draws: &[f64],
    target: f64,
    alpha_decay: f64,
    velocity_decay: f64,
    alpha_min: f64,
    budget: u64,
    work: &mut [u64],
) -> StepAnswer {
    // SAFETY: as in `tree`; alpha is one word and those of the force slots are FORCE_WORDS, as the entry takes them.
    unsafe {
        entry::talemiku_step(
            sheet.as_mut_ptr(),
            sheet.len(),
            alpha,
            words,
            numbers.as_ptr(),
            numbers.len(),
            links.as_ptr(),
            links.len(),
            draws.as_ptr(),
            draws.len(),
            target,
            alpha_decay,
            velocity_decay,
            alpha_min,
            budget,
            work.as_mut_ptr(),
            work.len(),
        )
    }
}

/// An outline in longitudes, unwrapped the short way round.
pub fn unwrap(corners: &[i64], centre: i64, unwrapped: &mut [i64]) -> Refusal {
    // SAFETY: each pointer is followed by the length of its own slice, and what is `&mut` overlaps no other; the entry stays within them.
    unsafe { entry::talemiku_unwrap(corners.as_ptr(), corners.len(), centre, unwrapped.as_mut_ptr(), unwrapped.len()) }
}

/// The tree that a list of edits leaves, three words each.
pub fn edits(edits: &[u64], rows: &mut [u32], chains: &mut [u32], work: &mut [u64]) -> TreeAnswer {
    // SAFETY: each pointer is followed by the length of its own slice, and what is `&mut` overlaps no other; the entry stays within them.
    unsafe {
        entry::talemiku_edits(
            edits.as_ptr(),
            edits.len(),
            rows.as_mut_ptr(),
            rows.len(),
            chains.as_mut_ptr(),
            chains.len(),
            work.as_mut_ptr(),
            work.len(),
        )
    }
}
