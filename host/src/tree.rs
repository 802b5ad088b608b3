//! The tree of a sheet.
use crate::raw;
pub use crate::raw::Extent;
use crate::Refusal;

/// How many words of lent work a slot for one node takes.
pub const SLOT_WORDS: usize = 8;

/// How many numbers of the tree call's first list a node takes.
pub const ROW_NUMBERS: usize = 4;

/// What is known of a tree beside its lists.
#[derive(Clone, Copy, Debug, PartialEq)]
pub struct Tree {
    /// How many nodes it has.
    pub nodes: usize,
    /// The root's cell; four zeros where there are no points.
    pub extent: Extent,
}

/// A node in a listing.
#[derive(Clone, Copy, Debug, PartialEq, Eq)]
pub struct Row {
    /// 0 for the root.
    pub level: u32,
    /// Which quarter of its parent it is; 0 for the root.
    pub quadrant: u32,
    /// 1 for an internal node, 2 for a leaf.
    pub kind: u32,
    /// How many particles its chain has; 0 for an internal node.
    pub chain: u32,
}

/// The tree of a sheet's particles: its nodes, parent first, into `rows` (four numbers each: [`rows`] reads them), the numbers of the
/// particles of its chains, in that order, into `chains`. What is left over becomes zero.
///
/// `work` holds a slot for every [`SLOT_WORDS`] words; `rows` is four numbers a slot long and `chains` one a particle. A sheet of n particles never needs
/// more than 1 + 64 n slots.
///
/// # Errors
///
/// 10, 1, 2, 4 or 5 for what is lent; 6 or 7 where the tree would pass level 64 or needs more slots. A refusal leaves both lists as they were.
///
/// ```
/// use talemiku::{rows, sheet_of, tree, Particle, ROW_NUMBERS, SLOT_WORDS};
/// let sheet = sheet_of(&[Particle::at(0.0, 0.0), Particle::at(3.0, 3.0), Particle::at(0.0, 0.0)]);
/// let (mut nodes, mut chains, mut work) = ([0; 5 * ROW_NUMBERS], [0; 3], [0; 5 * SLOT_WORDS]);
/// let made = tree(&sheet, &mut nodes, &mut chains, &mut work)?;
/// assert_eq!((made.nodes, made.extent.x1), (3, 4.0));
/// assert_eq!(chains, [0, 2, 1]);
/// let leaves = rows(&nodes[..made.nodes * ROW_NUMBERS]).filter(|row| row.kind == 2);
/// assert_eq!(leaves.map(|leaf| leaf.chain).collect::<Vec<_>>(), [2, 1]);
/// # Ok::<(), talemiku::Refusal>(())
/// ```
pub fn tree(sheet: &[u8], rows: &mut [u32], chains: &mut [u32], work: &mut [u64]) -> Result<Tree, Refusal> {
    let answer = raw::tree(sheet, rows, chains, work);
    Refusal::unless(answer.refusal, Tree { nodes: answer.nodes as usize, extent: answer.extent })
}

/// The nodes of a listing, four numbers each.
pub fn rows(list: &[u32]) -> impl Iterator<Item = Row> + '_ {
    list.chunks_exact(ROW_NUMBERS).map(|row| Row { level: row[0], quadrant: row[1], kind: row[2], chain: row[3] })
}
