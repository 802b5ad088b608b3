//! Edits through the archive: document 02, R-9, worked by hand, refusals, and every lent byte.
mod fence;
mod listed;

use listed::{ends, lend, Listed};
use talemiku::raw::{self, TreeAnswer};
use talemiku::{edits, sheet_of, tree, Edits, Particle, Refusal, Tree, EDIT_WORDS, ROW_NUMBERS};

const LIMIT: f64 = 1_099_511_627_776.0; // 2^40

/// An edit: a point in, or an insertion out.
#[derive(Clone, Copy)]
enum E {
    In(f64, f64),
    Out(usize),
}
use E::{In, Out};

fn list_of(all: &[E]) -> Edits {
    let mut list = Edits::new();
    for &edit in all {
        match edit {
            In(x, y) => assert_eq!(list.insert(x, y) + 1, list.insertions()),
            Out(number) => list.remove(number),
        }
    }
    assert_eq!((list.len(), list.is_empty()), (all.len(), all.is_empty()));
    list
}

fn list(slots: usize, all: &[E]) -> Result<Listed, Refusal> {
    let made = list_of(all);
    lend(slots, slots * ROW_NUMBERS, made.insertions(), |rows, chains, work| edits(&made, rows, chains, work))
}

/// Any words, with lists of any lengths; a refusal comes with no nodes and no extent.
fn words(slots: usize, words: &[u64], rows: usize, chains: usize) -> Result<Listed, Refusal> {
    lend(slots, rows, chains, |rows, chains, work| {
        let TreeAnswer { refusal, nodes, extent } = raw::edits(words, rows, chains, work);
        match Refusal::of(refusal) {
            None => Ok(Tree { nodes: nodes as usize, extent }),
            Some(refusal) => {
                assert_eq!((nodes, ends(extent)), (0, [0.0; 4]), "{refusal}");
                Err(refusal)
            }
        }
    })
}

fn listed(extent: [f64; 4], rows: &[[u32; 4]], chains: &[u32]) -> Result<Listed, Refusal> {
    Ok(Listed { extent, rows: rows.to_vec(), chains: chains.to_vec() })
}

const UNIT: [f64; 4] = [0.0, 0.0, 1.0, 1.0];
const TWO: [f64; 4] = [0.0, 0.0, 2.0, 2.0];

#[test]
fn none() {
    for slots in [0, 9] {
        assert_eq!(list(slots, &[]), listed([0.0; 4], &[], &[]));
    }
}

#[test]
fn one_in_and_out() {
    assert_eq!(list(1, &[In(-0.5, 0.0)]), listed([-1.0, 0.0, 0.0, 1.0], &[[0, 0, 2, 1]], &[0]));
    // the extent stays where no point does, and goes on from there
    assert_eq!(list(1, &[In(-0.5, 0.0), Out(0)]), listed([-1.0, 0.0, 0.0, 1.0], &[], &[0]));
    assert_eq!(list(1, &[In(-0.5, 0.0), Out(0), In(1.0, 1.0)]), listed([-1.0, 0.0, 3.0, 4.0], &[[0, 0, 2, 1]], &[1, 0]));
}

#[test]
fn one_of_two_labels_in_one_place() {
    let both = [In(0.0, 0.0), In(-0.0, 0.0), In(1.0, 1.0)];
    let rows = |chain| [[0, 0, 1, 0], [1, 0, 2, chain], [1, 3, 2, 1]];
    assert_eq!(list(3, &both), listed(TWO, &rows(2), &[0, 1, 2]));
    assert_eq!(list(3, &[&both[..], &[Out(0)]].concat()), listed(TWO, &rows(1), &[1, 2, 0]));
    assert_eq!(list(3, &[&both[..], &[Out(1)]].concat()), listed(TWO, &rows(1), &[0, 2, 0]));
    // a later one joins at the end, by its own number
    assert_eq!(list(3, &[&both[..], &[Out(0), In(0.0, -0.0)]].concat()), listed(TWO, &rows(2), &[1, 3, 2, 0]));
    assert_eq!(list(3, &[&both[..], &[Out(2), Out(0), In(0.0, 0.0)]].concat()), listed(TWO, &[[0, 0, 2, 2]], &[1, 3, 0, 0]));
}

#[test]
fn three_levels_that_go_at_once() {
    // (0, 0) and (0.25, 0.25) lie in the same quarter of a quarter
    let two = [[1, 0, 1, 0], [2, 0, 1, 0], [3, 0, 2, 1], [3, 3, 2, 1]];
    let three = [&[[0, 0, 1, 0]][..], &two, &[[1, 3, 2, 1]]].concat();
    let all = [In(0.0, 0.0), In(0.25, 0.25), In(1.0, 1.0)];
    assert_eq!(list(9, &all), listed(TWO, &three, &[0, 1, 2]));
    assert_eq!(list(9, &[&all[..], &[Out(1)]].concat()), listed(TWO, &[[0, 0, 1, 0], [1, 0, 2, 1], [1, 3, 2, 1]], &[0, 2, 0]));
    // cells with one child that is internal stay
    assert_eq!(list(9, &[&all[..], &[Out(2)]].concat()), listed(TWO, &[&[[0, 0, 1, 0]][..], &two].concat(), &[0, 1, 0]));
    assert_eq!(list(9, &[&all[..], &[Out(2), Out(0)]].concat()), listed(TWO, &[[0, 0, 2, 1]], &[1, 0, 0]));
    assert_eq!(list(9, &[&all[..], &[Out(2), Out(0), Out(1)]].concat()), listed(TWO, &[], &[0, 0, 0]));
}

#[test]
fn a_tree_of_65_levels_that_becomes_a_leaf() {
    let deep = [In(0.0, 0.0), In(0.5f64.powi(64), 0.0)];
    assert_eq!(list(66, &[&deep[..], &[Out(0)]].concat()), listed(UNIT, &[[0, 0, 2, 1]], &[1, 0]));
    assert_eq!(list(65, &[&deep[..], &[Out(0)]].concat()), Err(Refusal::Slots { particle: 1 }));
}

/// So many times the point at one corner goes and one at another comes, with (0, 0) there.
fn hops(times: usize) -> Vec<E> {
    let mut all = vec![In(0.0, 0.0), In(1.0, 1.0)];
    for k in 1..=times {
        all.extend([Out(k), if k % 2 == 0 { In(1.0, 1.0) } else { In(0.25, 0.25) }]);
    }
    all
}

#[test]
fn slots_are_used_again() {
    // three nodes with (1, 1), five with (0.25, 0.25) where the root has a side of 2
    let rows = [[0, 0, 1, 0], [1, 0, 1, 0], [2, 0, 1, 0], [3, 0, 2, 1], [3, 3, 2, 1]];
    for times in [1, 3, 501, 2047] {
        let all = hops(times);
        let mut chains = vec![0; times + 2];
        chains[1] = times as u32 + 1;
        assert_eq!(list(5, &all), listed(TWO, &rows, &chains));
        assert_eq!(list(4, &all), Err(Refusal::Slots { particle: 3 }));
    }
    // what was refused was needed for a while only
    assert_eq!(list(4, &[In(0.0, 0.0), In(0.25, 0.25), In(1.0, 1.0), Out(1)]), Err(Refusal::Slots { particle: 2 }));
    assert_eq!(list(2, &[In(0.0, 0.0), In(1.0, 1.0), Out(1)]), Err(Refusal::Slots { particle: 1 }));
    assert_eq!(list(0, &[In(0.0, 0.0), Out(0)]), Err(Refusal::Slots { particle: 0 }));
    assert_eq!(list(1, &[In(0.0, 0.0), Out(0), In(1.0, 1.0), Out(1), In(0.0, 0.0)]), listed(TWO, &[[0, 0, 2, 1]], &[2, 0, 0]));
}

#[test]
fn past_level_64() {
    let (zero, near, nearer) = (In(0.0, 0.0), In(0.5f64.powi(64), 0.0), In(0.5f64.powi(65), 0.0));
    assert_eq!(list(99, &[zero, nearer]), Err(Refusal::Level { particle: 1 }));
    // 6 if both
    assert_eq!(list(1, &[zero, nearer]), Err(Refusal::Level { particle: 1 }));
    // a later point makes the root larger and takes the two a level down, but not where one of them is gone
    let (aside, parted) = (In(1.0, 0.0), [[0, 0, 1, 0], [1, 0, 2, 1], [1, 1, 2, 1]]);
    assert_eq!(list(99, &[zero, near, aside]), Err(Refusal::Level { particle: 2 }));
    assert_eq!(list(99, &[zero, near, Out(0), aside]), listed(TWO, &parted, &[1, 2, 0]));
    // the root stays as large when that point goes
    assert_eq!(list(99, &[aside, Out(0), zero, near]), Err(Refusal::Level { particle: 3 }));
    assert_eq!(list(99, &[zero, aside, Out(1), near]), Err(Refusal::Level { particle: 3 }));
}

#[test]
fn what_is_not_there() {
    let two = [In(0.0, 0.0), In(1.0, 1.0)];
    for (more, edit) in
        [(&[Out(2)][..], 2), (&[Out(usize::MAX)], 2), (&[Out(1 << 32)], 2), (&[Out(0), Out(0)], 3), (&[Out(1), Out(0), Out(1)], 4)]
    {
        assert_eq!(list(9, &[&two[..], more].concat()), Err(Refusal::Absent { edit }));
    }
    // not yet there
    assert_eq!(list(9, &[Out(0), In(0.0, 0.0)]), Err(Refusal::Absent { edit: 0 }));
    assert_eq!(list(9, &[In(0.0, 0.0), Out(1), In(1.0, 1.0)]), Err(Refusal::Absent { edit: 1 }));
    // a point that comes again has a number of its own
    assert_eq!(list(9, &[In(0.0, 0.0), Out(0), In(0.0, 0.0), Out(0)]), Err(Refusal::Absent { edit: 3 }));
    assert_eq!(list(9, &[In(0.0, 0.0), Out(0), In(0.0, 0.0), Out(1)]), listed(UNIT, &[], &[0, 0]));
    // the first edit that is refused decides between 7 and 15
    assert_eq!(list(2, &[In(0.0, 0.0), In(1.0, 1.0), Out(7)]), Err(Refusal::Slots { particle: 1 }));
    assert_eq!(list(2, &[In(0.0, 0.0), Out(7), In(1.0, 1.0)]), Err(Refusal::Absent { edit: 1 }));
}

#[test]
fn what_is_lent_in_its_order() {
    let nan = f64::NAN.to_bits();
    let bad = [0, nan, 0];
    let unknown = [2, 0, 0];
    // 1, by whole edits
    assert_eq!(words(9, &bad.repeat(4097), 0, 0), Err(Refusal::TooMany));
    assert_eq!(words(9, &[&bad.repeat(4097)[..], &[0; 2]].concat(), 0, 0), Err(Refusal::TooMany));
    assert_eq!(words(9, &[&bad.repeat(4096)[..], &[0; 2]].concat(), 36, 4096), Err(Refusal::Lengths));
    // 2
    let edits = [unknown, bad, [0, 0, 0]].concat();
    for (rows, chains) in [(35, 2), (37, 2), (36, 1), (36, 3), (0, 2), (36, 0)] {
        assert_eq!(words(9, &edits, rows, chains), Err(Refusal::Lengths));
    }
    for left_over in [1, 2] {
        assert_eq!(words(9, &[&edits[..], &vec![0; left_over]].concat(), 36, 2), Err(Refusal::Lengths));
    }
    // 4 before 5, wherever they are
    assert_eq!(words(9, &edits, 36, 2), Err(Refusal::Coordinate { particle: 1 }));
    assert_eq!(words(9, &[unknown, [0, 0, 0], unknown].concat(), 36, 1), Err(Refusal::Number { place: 0 }));
    // 5 before 6, 7 and 15
    assert_eq!(words(0, &[[0, 0, 0], [1, 7, 0], [u64::MAX, 0, 0]].concat(), 0, 1), Err(Refusal::Number { place: 2 }));
    assert_eq!(words(0, &[[0, 0, 0], [0, 1, 0], [1 << 32, 0, 0]].concat(), 0, 2), Err(Refusal::Number { place: 2 }));
    // a removal has no coordinates, nor has an unknown kind
    assert_eq!(words(1, &[[0, 0, 0], [1, 0, nan]].concat(), 4, 1), listed(UNIT, &[], &[0]));
    assert_eq!(words(1, &[[0, 0, 0], [1, nan, 0]].concat(), 4, 1), Err(Refusal::Absent { edit: 1 }));
    assert_eq!(words(1, &[[0, 0, 0], [3, nan, nan]].concat(), 4, 1), Err(Refusal::Number { place: 1 }));
}

#[test]
fn the_last_coordinate() {
    assert_eq!(list(9, &[In(LIMIT, -LIMIT)]), listed([LIMIT, -LIMIT, LIMIT + 1.0, 1.0 - LIMIT], &[[0, 0, 2, 1]], &[0]));
    for far in [f64::from_bits(LIMIT.to_bits() + 1), f64::INFINITY, f64::NAN] {
        for number in [far, -far] {
            assert_eq!(list(9, &[In(0.0, 0.0), Out(0), In(number, 0.0)]), Err(Refusal::Coordinate { particle: 2 }));
            assert_eq!(list(9, &[Out(0), In(0.0, number)]), Err(Refusal::Coordinate { particle: 1 }));
        }
    }
}

/// So many points, at so many places at most, within a square of side 64 round zero.
fn points(n: usize, places: usize) -> Vec<(f64, f64)> {
    (0..n).map(|k| k * 37 % places).map(|k| ((k * 29 % 512) as f64 / 8.0 - 32.0, (k * k % 509) as f64 / 8.0 - 32.0)).collect()
}

#[test]
fn insertions_alone_are_the_tree() {
    for (n, places) in [(0, 1), (1, 1), (7, 3), (100, 97), (512, 40), (4096, 2048)] {
        let points = points(n, places);
        let sheet = sheet_of(&points.iter().map(|&(x, y)| Particle::at(x, y)).collect::<Vec<_>>());
        let all: Vec<E> = points.iter().map(|&(x, y)| In(x, y)).collect();
        let whole = |slots| lend(slots, slots * ROW_NUMBERS, n, |rows, chains, work| tree(&sheet, rows, chains, work));
        let enough = whole(8192).expect("a tree").rows.len();
        for slots in [0, enough / 2, enough.saturating_sub(1), enough, enough + 1] {
            assert_eq!(list(slots, &all), whole(slots), "{n} points, {slots} slots");
        }
    }
}

#[test]
fn as_many_as_are_taken() {
    // half of them come, and go again from the first on
    let points = points(2048, 2048);
    let mut all: Vec<E> = points.iter().map(|&(x, y)| In(x, y)).chain((0..2048).map(Out)).collect();
    let all_gone = list(8192, &all).expect("none is left");
    assert_eq!((all_gone.rows.len(), all_gone.chains), (0, vec![0; 2048]));
    all.pop();
    let last = list(8192, &all).expect("one is left");
    assert_eq!((last.rows, last.chains[0], last.extent), (vec![[0, 0, 2, 1]], 2047, all_gone.extent));
    all.extend([Out(2047), In(0.0, 0.0)]);
    assert_eq!(list(8192, &all), Err(Refusal::TooMany));
    assert_eq!(list_of(&all).words().len(), 4097 * EDIT_WORDS);
}
