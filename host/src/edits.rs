//! The tree that a list of edits leaves.
use crate::raw;
use crate::{Refusal, Tree};

/// How many words an edit takes.
pub const EDIT_WORDS: usize = 3;

/// The kinds of edits, an edit's first word.
const INSERTION: u64 = 0;
const REMOVAL: u64 = 1;

/// A list of edits, in order: each inserts a point, or removes an earlier insertion by its number.
///
/// Numbers and points are taken as they come: it is the call that looks at them ([`edits`]).
///
/// ```
/// use talemiku::{Edits, EDIT_WORDS};
/// let mut list = Edits::new();
/// let lights = [list.insert(0.0, 0.0), list.insert(3.0, 3.0)];
/// list.remove(lights[0]);
/// assert_eq!((lights, list.len(), list.insertions()), ([0, 1], 3, 2));
/// assert_eq!(list.words().len(), 3 * EDIT_WORDS);
/// ```
#[derive(Clone, Debug, Default, PartialEq, Eq)]
pub struct Edits {
    words: Vec<u64>,
    insertions: usize,
}

impl Edits {
    /// No edits.
    #[must_use]
    pub fn new() -> Self {
        Self::default()
    }

    /// Inserts a point, and answers the insertion's number: 0 for the first, whatever was removed in between.
    pub fn insert(&mut self, x: f64, y: f64) -> usize {
        self.words.extend([INSERTION, x.to_bits(), y.to_bits()]);
        self.insertions += 1;
        self.insertions - 1
    }

    /// Removes the insertion of this number.
    pub fn remove(&mut self, number: usize) {
        self.words.extend([REMOVAL, number as u64, 0]);
    }

    /// How many edits there are.
    #[must_use]
    pub fn len(&self) -> usize {
        self.words.len() / EDIT_WORDS
    }

    /// Whether there are none.
    #[must_use]
    pub fn is_empty(&self) -> bool {
        self.words.is_empty()
    }

    /// How many of them are insertions: so long are the call's `chains`.
    #[must_use]
    pub fn insertions(&self) -> usize {
        self.insertions
    }

    /// The edits as the entry takes them, three words each: 0 for an insertion and the bits of x and of y, or 1 for a removal, the insertion's number and a word that isn't
    /// looked at.
    #[must_use]
    pub fn words(&self) -> &[u64] {
        &self.words
    }
}

/// The tree of the insertions that are still there after all edits, listed as [`tree`](crate::tree()) lists one: its nodes, parent first, into `rows`
/// ([`rows`](crate::rows) reads them), the numbers of the insertions of its chains, in that order, into `chains`. What is left over becomes zero.
///
/// The extent covers every point that was inserted, also those that were removed, so it never shrinks; it is four zeros only where nothing was
/// inserted. In it a cell that is left with one distinct point is a leaf, and one with none is gone. The numbers of a chain ascend.
///
/// `work` holds a slot for every [`SLOT_WORDS`](crate::SLOT_WORDS) words; `rows` is four numbers a slot long and `chains` one an insertion
/// ([`Edits::insertions`]). Slots that a removal frees serve later insertions, so n points at a time never need more than 1 + 64 n slots, however
/// many edits there are.
///
/// # Errors
///
/// 1 for over 4,096 edits, 2 for the lengths of the lists, 4 at the first insertion with a bad coordinate. Then, edit by edit, 6 or 7 where the tree at
/// that edit would pass level 64 or needs more slots than were lent, and 15 where it removes what isn't there. Places are the edits'. The whole list is
/// then refused, and both results stay as they were.
///
/// ```
/// use talemiku::{edits, rows, Edits, Refusal, Row, ROW_NUMBERS, SLOT_WORDS};
/// let mut list = Edits::new();
/// let (light, _) = (list.insert(0.0, 0.0), list.insert(3.0, 3.0));
/// let buoy = list.insert(0.0, 0.0);
/// list.remove(light);
/// let (mut nodes, mut chains, mut work) = ([0; 5 * ROW_NUMBERS], [0; 3], [0; 5 * SLOT_WORDS]);
/// let made = edits(&list, &mut nodes, &mut chains, &mut work)?;
/// assert_eq!((made.nodes, chains), (3, [2, 1, 0]));
///
/// // with one distinct point left the root is a leaf, in the extent as it was
/// list.remove(buoy);
/// let made = edits(&list, &mut nodes, &mut chains, &mut work)?;
/// assert_eq!((made.nodes, made.extent.x1, chains), (1, 4.0, [1, 0, 0]));
/// assert_eq!(rows(&nodes).next(), Some(Row { level: 0, quadrant: 0, kind: 2, chain: 1 }));
///
/// list.remove(light);
/// assert_eq!(edits(&list, &mut nodes, &mut chains, &mut work), Err(Refusal::Absent { edit: 5 }));
/// # Ok::<(), Refusal>(())
/// ```
pub fn edits(edits: &Edits, rows: &mut [u32], chains: &mut [u32], work: &mut [u64]) -> Result<Tree, Refusal> {
    let answer = raw::edits(edits.words(), rows, chains, work);
    Refusal::unless(answer.refusal, Tree { nodes: answer.nodes as usize, extent: answer.extent })
}
