//! Talemiku for a Rust host: spreads the labels of a chart, by the quadtree and the forces of fjadra.
//!
//! The work is done by Talemiku's archive, every function of which is proved to meet its contract. Any bytes may be handed in: each call checks
//! its input, ends, and refuses by number what it can't do ([`Refusal`]). What a call may change is borrowed as `&mut`, so no two buffers of a call overlap.
//!
//! - [`floor()`], [`root`]: numbers.
//! - [`written_sheet_of`], [`read_particles_of`]: a sheet of 40-byte records, written and read; [`write_sheet`], [`read_sheet`]: the same into what is lent.
//! - [`tree()`]: the quadtree of a sheet.
//! - [`many_body`], [`collide`], [`link`]: one force on places and velocities.
//! - [`center`], [`apply_velocities`]: Center and the closing move on particles.
//! - [`tick()`], [`step`]: a whole sheet, with up to eight forces ([`Forces`]).
//! - [`unwrap`]: an outline in longitudes, unwrapped the short way round, across 180 degrees too.
//! - [`edits()`]: the quadtree that points inserted and removed leave ([`Edits`]).
//!
//! Nothing is allocated by the archive: a tree's nodes live in lent work slots ([`SLOT_WORDS`]), jiggles come from a lent list of draws, and a call's own lists stand on the
//! stack (some 400 KB for a tick). [`raw`] has the same calls with their answers as they come.
#![deny(missing_docs, unsafe_code)]
#![warn(clippy::missing_errors_doc, clippy::must_use_candidate, clippy::undocumented_unsafe_blocks)]

mod edits;
mod force;
mod forces;
mod number;
mod outline;
mod particles;
pub mod raw;
mod refusal;
mod sheet;
mod tick;
mod tree;

pub use edits::{edits, Edits, EDIT_WORDS};
pub use force::{collide, link, many_body, velocities_of, velocity_bytes, Counts, Lent, Links, Points};
pub use forces::{Force, Forces, FORCE_SLOTS, FORCE_WORDS};
pub use number::{floor, root};
pub use outline::{unwrap, HALF_TURN};
pub use particles::{apply_velocities, center};
pub use refusal::Refusal;
pub use sheet::{particles_of, read_particles_of, read_sheet, sheet_of, write_sheet, written_sheet_of, Particle, RECORD_BYTES};
pub use tick::{step, tick, Settings, Steps};
pub use tree::{rows, tree, Extent, Row, Tree, ROW_NUMBERS, SLOT_WORDS};
