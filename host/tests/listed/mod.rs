//! What the calls that list a tree say and leave: every lent byte is looked at.
use crate::fence::Fenced;
use talemiku::{Extent, Refusal, Tree, ROW_NUMBERS, SLOT_WORDS};

const RUBBISH: u32 = 0xdead_beef;
const WORK: u64 = 0x7ff4_0000_dead_beef;

/// What a call says and leaves.
#[derive(Debug, PartialEq)]
pub struct Listed {
    pub extent: [f64; 4],
    pub rows: Vec<[u32; 4]>,
    pub chains: Vec<u32>,
}

pub fn ends(extent: Extent) -> [f64; 4] {
    [extent.x0, extent.y0, extent.x1, extent.y1]
}

/// Lends so much to a call, and looks at all of it. The words left over after whole slots are zeroed with the rest.
pub fn lend(
    slots: usize,
    rows: usize,
    chains: usize,
    call: impl FnOnce(&mut [u32], &mut [u32], &mut [u64]) -> Result<Tree, Refusal>,
) -> Result<Listed, Refusal> {
    let (rows, chains, work) = (vec![RUBBISH; rows], vec![RUBBISH; chains], vec![WORK; slots * SLOT_WORDS + 3]);
    let mut lent_rows = Fenced::new(&rows, RUBBISH);
    let mut lent_chains = Fenced::new(&chains, RUBBISH);
    let mut lent_work = Fenced::new(&work, WORK);
    let answer = call(lent_rows.part(), lent_chains.part(), lent_work.part());
    let rows_now = lent_rows.now().expect("beside the rows");
    let chains_now = lent_chains.now().expect("beside the chains");
    let work_now = lent_work.now().expect("beside the work");
    let zero = vec![0; work.len()];
    let tree = match answer {
        Ok(tree) => tree,
        Err(refusal) => {
            assert_eq!((rows_now, chains_now), (&rows[..], &chains[..]), "results after {refusal}");
            assert_eq!(work_now, if refusal.clears_work() { &zero } else { &work }, "work after {refusal}");
            return Err(refusal);
        }
    };
    assert_eq!(work_now, zero);
    let (used, rest) = rows_now.split_at(tree.nodes * ROW_NUMBERS);
    assert!(rest.iter().all(|&number| number == 0), "unused rows");
    let rows = used.chunks(4).map(|r| [r[0], r[1], r[2], r[3]]).collect();
    Ok(Listed { extent: ends(tree.extent), rows, chains: chains_now.to_vec() })
}
