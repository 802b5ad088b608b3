//! Labels taken off the sheet (document 02, R-9): a second reading, the cases, and the archive's answers held to it.

use crate::fence::Fenced;
use crate::random::Random;
use std::collections::{BTreeMap, BTreeSet, HashMap};
use std::fmt;
use talemiku::raw::{self, Refusal};

/// So many edits are taken, and no more; no leaf lies below this level; no coordinate lies further from zero.
const MOST: usize = 4096;
const DEEPEST: u32 = 64;
const FARTHEST: f64 = 1_099_511_627_776.0;
/// Words of an edit and of a slot; numbers of a node in a listing.
const EDIT: usize = 3;
const SLOT: usize = 8;
const ROW: usize = 4;
/// Lists of more edits than these are measured by counting.
const SHORT: usize = 256;

type Point = (f64, f64);
/// Numbers of insertions, with their points.
type Points = [(usize, Point)];

struct Case {
    words: Vec<u64>,
    /// How long the lent lists are.
    rows: usize,
    chains: usize,
    work: usize,
}

/// What a call answers, the extent by its bits, and what the lent lists hold after it.
#[derive(PartialEq)]
struct Answer {
    refusal: Refusal,
    nodes: u64,
    extent: [u64; 4],
    rows: Vec<u32>,
    chains: Vec<u32>,
    work: Vec<u64>,
}

/// What the lent lists hold.
struct Lent {
    rows: Vec<u32>,
    chains: Vec<u32>,
    work: Vec<u64>,
}

// ---- the reading: what an edit is

#[derive(Clone, Copy)]
enum Edit {
    Insertion(Point),
    Removal(u64),
    Unknown,
}

/// The edits of a list; words at its end that make none are left out.
fn edits_of(words: &[u64]) -> Vec<Edit> {
    let edit = |words: &[u64]| match words[0] {
        0 => Edit::Insertion((f64::from_bits(words[1]), f64::from_bits(words[2]))),
        1 => Edit::Removal(words[1]),
        _ => Edit::Unknown,
    };
    words.chunks_exact(EDIT).map(edit).collect()
}

/// Not a NaN, not infinite, not beyond 2^40.
fn is_coordinate(number: f64) -> bool {
    (-FARTHEST..=FARTHEST).contains(&number)
}

// ---- the reading: the extent, in whole numbers, none of which comes near the end of i64

#[derive(Clone, Copy, Debug, PartialEq)]
struct Extent {
    x0: i64,
    y0: i64,
    x1: i64,
    y1: i64,
}

/// The extent that covers one point more.
fn covering(extent: Option<Extent>, (x, y): Point) -> Extent {
    let (x, y) = (x.floor() as i64, y.floor() as i64);
    let mut e = match extent {
        None => return Extent { x0: x, y0: y, x1: x + 1, y1: y + 1 },
        Some(extent) => extent,
    };
    let mut z = e.x1 - e.x0;
    while x < e.x0 || x >= e.x1 || y < e.y0 || y >= e.y1 {
        z *= 2;
        match (y < e.y0, x < e.x0) {
            (false, false) => (e.x1, e.y1) = (e.x0 + z, e.y0 + z),
            (false, true) => (e.x0, e.y1) = (e.x1 - z, e.y0 + z),
            (true, false) => (e.x1, e.y0) = (e.x0 + z, e.y1 - z),
            (true, true) => (e.x0, e.y0) = (e.x1 - z, e.y1 - z),
        }
    }
    e
}

// ---- the reading: the cell rule

/// A cell's ends: x0, y0, x1, y1.
type Cell = [f64; 4];

fn root_of(extent: Extent) -> Cell {
    [extent.x0 as f64, extent.y0 as f64, extent.x1 as f64, extent.y1 as f64]
}

fn middle([x0, y0, x1, y1]: Cell) -> Point {
    ((x0 + x1) / 2.0, (y0 + y1) / 2.0)
}

/// In which quarter of a cell a point lies.
fn quadrant(cell: Cell, (x, y): Point) -> u32 {
    let (xm, ym) = middle(cell);
    2 * u32::from(y >= ym) + u32::from(x >= xm)
}

fn quarter(cell: Cell, quadrant: u32) -> Cell {
    let [x0, y0, x1, y1] = cell;
    let (xm, ym) = middle(cell);
    match quadrant {
        0 => [x0, y0, xm, ym],
        1 => [xm, y0, x1, ym],
        2 => [x0, ym, xm, y1],
        _ => [xm, ym, x1, y1],
    }
}

/// A node in the listing, and of a leaf the numbers of its insertions.
struct Node {
    row: [u32; ROW],
    chain: Vec<usize>,
}

/// A cell with points in it, and all below it, parent first; none where it would pass the deepest level. Points keep their order, so a chain's numbers ascend.
fn list(cell: Cell, level: u32, place: u32, points: &Points, nodes: &mut Vec<Node>) -> Option<()> {
    if points.iter().all(|&(_, point)| point == points[0].1) {
        let chain: Vec<usize> = points.iter().map(|&(number, _)| number).collect();
        nodes.push(Node { row: [level, place, 2, chain.len() as u32], chain });
        return Some(());
    }
    if level == DEEPEST {
        return None;
    }
    nodes.push(Node { row: [level, place, 1, 0], chain: Vec::new() });
    for place in 0..4 {
        let inside: Vec<(usize, Point)> = points.iter().copied().filter(|&(_, point)| quadrant(cell, point) == place).collect();
        if !inside.is_empty() {
            list(quarter(cell, place), level + 1, place, &inside, nodes)?;
        }
    }
    Some(())
}

/// The tree of these points in this extent; none where it would pass the deepest level.
fn tree(extent: Option<Extent>, points: &Points) -> Option<Vec<Node>> {
    let mut nodes = Vec::new();
    match extent {
        Some(extent) if !points.is_empty() => list(root_of(extent), 0, 0, points, &mut nodes)?,
        _ => {}
    }
    Some(nodes)
}

// ---- the reading: edit by edit

/// What stands after some edits: every point that was inserted, and which of them are still there.
#[derive(Default)]
struct Sheet {
    inserted: Vec<Point>,
    there: BTreeSet<usize>,
}

impl Sheet {
    /// The edit's own refusal, 15, is none.
    fn edit(&mut self, edit: Edit) -> Option<()> {
        match edit {
            Edit::Insertion(point) => {
                self.there.insert(self.inserted.len());
                self.inserted.push(point);
            }
            Edit::Removal(number) => {
                if !self.there.remove(&usize::try_from(number).ok()?) {
                    return None;
                }
            }
            Edit::Unknown => unreachable!("5 comes before all edits"),
        }
        Some(())
    }

    /// That of all points inserted so far.
    fn extent(&self) -> Option<Extent> {
        self.inserted.iter().fold(None, |extent, &point| Some(covering(extent, point)))
    }

    /// The insertions that are still there, in order.
    fn points(&self) -> Vec<(usize, Point)> {
        self.there.iter().map(|&number| (number, self.inserted[number])).collect()
    }
}

/// What an edit needs beside its own sense: so many slots; or it would pass the deepest level; or it removes what isn't there.
#[derive(Clone, Copy, Debug, PartialEq)]
enum Need {
    Slots(usize),
    TooDeep,
    Absent,
}

/// What each edit needs, up to the first that is refused whatever is lent: the tree is built afresh at each.
fn afresh(edits: &[Edit]) -> Vec<Need> {
    let mut sheet = Sheet::default();
    let mut needs = Vec::new();
    for &edit in edits {
        let need = match sheet.edit(edit) {
            None => Need::Absent,
            Some(()) => tree(sheet.extent(), &sheet.points()).map_or(Need::TooDeep, |nodes| Need::Slots(nodes.len())),
        };
        needs.push(need);
        if !matches!(need, Need::Slots(_)) {
            break;
        }
    }
    needs
}

/// What a call answers past the checks of what is lent: the sheet at the end, or the first edit's refusal.
fn worked(edits: &[Edit], needs: &[Need], slots: usize) -> Result<Sheet, Refusal> {
    let mut sheet = Sheet::default();
    for ((place, &edit), &need) in (0..).zip(edits).zip(needs) {
        match need {
            Need::Absent => return Err(Refusal { number: 15, place }),
            Need::TooDeep => return Err(Refusal { number: 6, place }),
            Need::Slots(nodes) if nodes > slots => return Err(Refusal { number: 7, place }),
            Need::Slots(_) => sheet.edit(edit).expect("what is removed is there"),
        }
    }
    Ok(sheet)
}

/// The checks of what is lent, in their order.
fn checks(case: &Case, edits: &[Edit]) -> Result<(), Refusal> {
    let refused = |number, place| Err(Refusal { number, place });
    if edits.len() > MOST {
        return refused(1, 0);
    }
    let insertions = edits.iter().filter(|edit| matches!(edit, Edit::Insertion(_))).count();
    if case.words.len() % EDIT != 0 || case.rows != ROW * (case.work / SLOT) || case.chains != insertions {
        return refused(2, 0);
    }
    for (place, edit) in (0..).zip(edits) {
        match *edit {
            Edit::Insertion((x, y)) if !is_coordinate(x) || !is_coordinate(y) => return refused(4, place),
            _ => {}
        }
    }
    match edits.iter().position(|edit| matches!(edit, Edit::Unknown)) {
        Some(place) => refused(5, place as u64),
        None => Ok(()),
    }
}

/// What the call has to answer and to leave in lists that hold this. The needs of a list don't depend on what is lent, so they come from outside.
fn reading(case: &Case, edits: &[Edit], needs: impl FnOnce() -> Vec<Need>, before: &Lent) -> Answer {
    let nothing = vec![0; case.work];
    let refused = |refusal, work: &[u64]| Answer {
        refusal,
        nodes: 0,
        extent: [0; 4],
        rows: before.rows.clone(),
        chains: before.chains.clone(),
        work: work.to_vec(),
    };
    if let Err(refusal) = checks(case, edits) {
        return refused(refusal, &before.work);
    }
    let sheet = match worked(edits, &needs(), case.work / SLOT) {
        Err(refusal) => return refused(refusal, &nothing),
        Ok(sheet) => sheet,
    };
    let nodes = tree(sheet.extent(), &sheet.points()).expect("it was measured");
    let mut rows: Vec<u32> = nodes.iter().flat_map(|node| node.row).collect();
    rows.resize(case.rows, 0);
    let mut chains: Vec<u32> = nodes.iter().flat_map(|node| &node.chain).map(|&number| number as u32).collect();
    chains.resize(case.chains, 0);
    Answer {
        refusal: Refusal { number: 0, place: 0 },
        nodes: nodes.len() as u64,
        extent: sheet.extent().map_or([0; 4], |extent| root_of(extent).map(f64::to_bits)),
        rows,
        chains,
        work: nothing,
    }
}

// ---- long lists: what each edit needs, by counting

/// The distinct points of every cell down to the deepest level, counted as they come and go; all anew where the extent grows. What this gives is held to the trees built afresh on
/// some of the short lists.
#[derive(Default)]
struct Counted {
    sheet: Sheet,
    extent: Option<Extent>,
    /// How many insertions a point has, by the bits of its coordinates, a zero's without a sign.
    copies: BTreeMap<[u64; 2], usize>,
    /// How many distinct points a cell has, by its level and the quadrants that lead there.
    cells: HashMap<(u32, u128), usize>,
    /// How many nodes there are but the root.
    below: usize,
    /// Cells of the deepest level with two points or more.
    too_deep: usize,
}

fn bits((x, y): Point) -> [u64; 2] {
    [(x + 0.0).to_bits(), (y + 0.0).to_bits()]
}

impl Counted {
    fn points(&self, level: u32, way: u128) -> usize {
        *self.cells.get(&(level, way)).unwrap_or(&0)
    }

    /// The children of a cell: it has some where it has two points or more.
    fn children(&self, level: u32, way: u128) -> usize {
        if level == DEEPEST || self.points(level, way) < 2 {
            0
        } else {
            (0..4).filter(|place| self.points(level + 1, way << 2 | place) > 0).count()
        }
    }

    /// A distinct point comes or goes: the cells that it lies in have one more or one fewer, and no other cell's children change.
    fn change(&mut self, point: Point, by: fn(usize) -> usize) {
        let mut cell = root_of(self.extent.expect("it was inserted"));
        let mut ways = vec![0];
        for level in 0..DEEPEST {
            let place = quadrant(cell, point);
            ways.push(ways[level as usize] << 2 | u128::from(place));
            cell = quarter(cell, place);
        }
        let ways: Vec<(u32, u128)> = (0..).zip(ways).collect();
        let children = |all: &Self| ways.iter().map(|&(level, way)| all.children(level, way)).sum::<usize>();
        let last = ways[DEEPEST as usize];
        self.below -= children(self);
        self.too_deep -= usize::from(self.points(last.0, last.1) > 1);
        for &way in &ways {
            let points = self.cells.entry(way).or_default();
            *points = by(*points);
        }
        self.below += children(self);
        self.too_deep += usize::from(self.points(last.0, last.1) > 1);
    }

    fn come(&mut self, point: Point) {
        let copies = self.copies.entry(bits(point)).or_default();
        *copies += 1;
        let first = *copies == 1;
        let extent = Some(covering(self.extent, point));
        if extent != self.extent {
            let all = self.copies.iter().filter(|&(_, &copies)| copies > 0).map(|(&[x, y], _)| (f64::from_bits(x), f64::from_bits(y)));
            let all: Vec<Point> = all.collect();
            self.extent = extent;
            self.cells.clear();
            self.below = 0;
            self.too_deep = 0;
            for point in all {
                self.change(point, |points| points + 1);
            }
        } else if first {
            self.change(point, |points| points + 1);
        }
    }

    fn go(&mut self, point: Point) {
        let copies = self.copies.get_mut(&bits(point)).expect("it was inserted");
        *copies -= 1;
        if *copies == 0 {
            self.change(point, |points| points - 1);
        }
    }

    fn edit(&mut self, edit: Edit) -> Need {
        if self.sheet.edit(edit).is_none() {
            return Need::Absent;
        }
        match edit {
            Edit::Insertion(point) => self.come(point),
            Edit::Removal(number) => self.go(self.sheet.inserted[number as usize]),
            Edit::Unknown => {}
        }
        if self.too_deep > 0 {
            Need::TooDeep
        } else {
            Need::Slots(self.below + usize::from(self.points(0, 0) > 0))
        }
    }
}

/// The needs of edits, as `afresh` has them.
fn counted(edits: &[Edit]) -> Vec<Need> {
    let mut all = Counted::default();
    let mut needs = Vec::new();
    for &edit in edits {
        needs.push(all.edit(edit));
        if !matches!(needs.last(), Some(Need::Slots(_))) {
            break;
        }
    }
    needs
}

/// What each edit needs, as it is measured for so many; by both ways if asked.
fn needs(edits: &[Edit], both: bool) -> Vec<Need> {
    if edits.len() > SHORT {
        return counted(edits);
    }
    let needs = afresh(edits);
    assert!(!both || needs == counted(edits), "the reading's own ways differ");
    needs
}

// ---- the archive, and both answers held to each other

/// What the call answers and leaves, or what is wrong beside these.
fn archive(case: &Case, before: &Lent, beside: u64) -> Result<Answer, &'static str> {
    let mut words = Fenced::new(&case.words, beside);
    let mut rows = Fenced::new(&before.rows, beside as u32);
    let mut chains = Fenced::new(&before.chains, !beside as u32);
    let mut work = Fenced::new(&before.work, !beside);
    let answer = raw::edits(words.part(), rows.part(), chains.part(), work.part());
    if words.now() != Some(&case.words[..]) {
        return Err("the edits, or what lies beside them, are changed");
    }
    let extent = answer.extent;
    Ok(Answer {
        refusal: answer.refusal,
        nodes: answer.nodes,
        extent: [extent.x0, extent.y0, extent.x1, extent.y1].map(f64::to_bits),
        rows: rows.now().ok_or("something is written beside the rows")?.to_vec(),
        chains: chains.now().ok_or("something is written beside the chains")?.to_vec(),
        work: work.now().ok_or("something is written beside the work")?.to_vec(),
    })
}

impl fmt::Display for Case {
    fn fmt(&self, out: &mut fmt::Formatter) -> fmt::Result {
        for words in self.words.chunks(EDIT) {
            match edits_of(words)[..] {
                [Edit::Insertion((x, y))] => write!(out, "in {x:?} {y:?}, ")?,
                [Edit::Removal(number)] => write!(out, "out {number}, ")?,
                _ => write!(out, "words {words:?}, ")?,
            }
        }
        write!(out, "rows {}, chains {}, work {} words", self.rows, self.chains, self.work)
    }
}

impl fmt::Display for Answer {
    fn fmt(&self, out: &mut fmt::Formatter) -> fmt::Result {
        write!(out, "number {}, place {}, nodes {}, ", self.refusal.number, self.refusal.place, self.nodes)?;
        write!(out, "extent {:?}, rows {:?}, chains {:?}, ", self.extent.map(f64::from_bits), self.rows, self.chains)?;
        match self.work.iter().position(|&word| word != 0) {
            None => write!(out, "work zero"),
            Some(_) => write!(out, "work {:?}", self.work),
        }
    }
}

/// With other rubbish lent for each case.
fn hold(all: impl Iterator<Item = Case>) -> bool {
    // the list that was measured last, which the next case may have too
    let mut measured = (Vec::new(), Vec::new());
    crate::hold("edits", all, |cases, case: &Case| {
        let mut rubbish = Random::new(!cases);
        let beside = rubbish.next();
        let before = Lent {
            rows: (0..case.rows).map(|_| rubbish.next() as u32).collect(),
            chains: (0..case.chains).map(|_| rubbish.next() as u32).collect(),
            work: (0..case.work).map(|_| rubbish.next()).collect(),
        };
        let edits = edits_of(&case.words);
        let measure = || {
            if measured.0 != case.words {
                measured = (case.words.clone(), needs(&edits, cases % 8 == 0));
            }
            measured.1.clone()
        };
        let read = reading(case, &edits, measure, &before);
        let number = read.refusal.number;
        ((read, number), archive(case, &before, beside))
    })
}

// ---- every small case

fn insertion((x, y): Point) -> [u64; EDIT] {
    [0, x.to_bits(), y.to_bits()]
}

/// With rubbish for the word that isn't looked at.
fn removal(number: u64) -> [u64; EDIT] {
    [1, number, number.wrapping_sub(7)]
}

/// The points that `every` inserts, and the numbers that it removes.
const SMALL: [Point; 5] = [(0.0, 0.0), (1.0, 0.0), (0.0, 1.0), (1.0, 1.0), (0.25, 0.25)];
const NUMBERS: [u64; 5] = [0, 1, 2, 3, 4];

/// These edits, with so many slots and words left over after them, and lists as long as they have to be.
fn lent(edits: &[[u64; EDIT]], slots: usize, left_over: usize) -> Case {
    let chains = edits.iter().filter(|edit| edit[0] == 0).count();
    Case { words: edits.concat(), rows: ROW * slots, chains, work: SLOT * slots + left_over }
}

/// Every list of so many of these.
fn lists(of: Vec<[u64; EDIT]>, length: u32) -> impl Iterator<Item = Vec<[u64; EDIT]>> {
    let n = of.len();
    (0..n.pow(length)).map(move |list| (0..length).map(|k| of[list / n.pow(k) % n]).collect())
}

/// As many edits as are taken, one fewer and one more, in and out by turns, with no slot and with one, and none to two words after the last edit.
fn limits() -> impl Iterator<Item = Case> {
    let by_turns = |k| if k % 2 == 0 { insertion(SMALL[0]) } else { removal(k / 2) };
    let all: Vec<[u64; EDIT]> = (0..=MOST as u64).map(by_turns).collect();
    (0..18).map(move |k| {
        let mut case = lent(&all[..MOST - 1 + k / 6], k % 2, 0);
        case.words.resize(case.words.len() + k / 2 % 3, 0);
        case
    })
}

/// Every list of at most so many edits, with each number of slots from none to eight, which are enough for all five points; and those at the limit.
fn every(most: u32) -> impl Iterator<Item = Case> {
    let some: Vec<[u64; EDIT]> = SMALL.iter().map(|&point| insertion(point)).chain(NUMBERS.iter().map(|&number| removal(number))).collect();
    let small = (0..=most).flat_map(move |length| lists(some.clone(), length));
    small.flat_map(|list| (0..9).map(move |slots| lent(&list, slots, (slots + list.len()) % SLOT))).chain(limits())
}

// ---- long lists

/// Most of them accepted: as many edits as are taken, long chains, many nodes, all places of a walk, and ends that are refused at the last edit; and more slots and edits than 16 bits count.
fn long() -> Vec<Case> {
    let grid = |k: usize| ((k % 64) as f64, (k / 64) as f64);
    let list = |point: &dyn Fn(usize) -> Point| -> Vec<[u64; EDIT]> { (0..MOST).map(|k| insertion(point(k))).collect() };
    let spread = list(&grid);
    let one_place = list(&|_| SMALL[0]);
    let pairs = list(&|k| (grid(k / 2).0 + (k % 2) as f64 * part(5), grid(k / 2).1));
    // at every level down to 64 the three other quarters hold a point each
    let around = |k| [insertion((part(k), 0.0)), insertion((0.0, part(k))), insertion((part(k), part(k)))];
    let nested: Vec<[u64; EDIT]> = [insertion(SMALL[0])].into_iter().chain((1..=64).flat_map(around)).collect();
    // two thirds of the edits are insertions, and then every second one goes
    let come = MOST * 2 / 3;
    let gone: Vec<[u64; EDIT]> = (0..come as u64).step_by(2).map(removal).collect();
    let thinned = |list: &[[u64; EDIT]]| [&list[..come], &gone].concat();
    let ends = [removal(MOST as u64 - 1), removal(0), [0, f64::NAN.to_bits(), 0], [2, 0, 0], insertion((part(50), 0.0))];
    let mut cases: Vec<Case> = ends.iter().map(|&end| lent(&[&spread[..MOST - 1], &[end]].concat(), 9000, 0)).collect();
    for (edits, slots, left_over) in [
        (&spread, 5461, 3),
        (&spread, 5460, 3),
        (&thinned(&spread), 5461, 0),
        (&one_place, 1, 0),
        (&thinned(&one_place), 1, 0),
        (&pairs, 20_000, 5),
        (&thinned(&pairs), 20_000, 5),
        (&nested, 300, 0),
        (&spread[..3].to_vec(), (1 << 16) + 1, 7),
        (&vec![insertion(SMALL[0]); (1 << 16) + 1], 1, 0),
    ] {
        cases.push(lent(edits, slots, left_over));
    }
    cases
}

// ---- random cases, the same for a seed on every machine

/// 2 to the power of -n.
fn part(n: usize) -> f64 {
    0.5f64.powi(n as i32)
}

/// The numbers 0, 1, .. with either sign, zero's too.
fn signed(r: &mut Random, below: usize) -> f64 {
    r.pick(&[1.0, 1.0, -1.0]) * r.below(below) as f64
}

/// Whole numbers near zero, or quarters of such: many come again.
fn on_a_grid(r: &mut Random) -> Point {
    let (side, unit) = r.pick(&[(2, 1.0), (3, 1.0), (5, 0.25), (9, 0.5)]);
    (signed(r, side) * unit, signed(r, side) * unit)
}

/// Anywhere in a square of side 2,000.
fn spread(r: &mut Random) -> Point {
    let mut one = || (r.next() >> 11) as f64 * part(53) * 2000.0 - 1000.0;
    (one(), one())
}

/// Pairs that only deep cells part, at zero and elsewhere: level 64 is at 2^-64, one more at half of that.
fn deep(r: &mut Random) -> Point {
    let k = r.pick(&[1, 10, 40, 60, 62, 63, 63, 64, 64, 64, 64, 65, 66]);
    match r.below(8) {
        0 | 1 => (0.0, 0.0),
        2 => (part(k), 0.0),
        3 => (0.0, part(k)),
        4 => (-part(k), -0.0),
        5 => (part(k), part(k)),
        6 => (1.0 + part(k.min(52)), 1.0),
        _ => (1.0, 0.0),
    }
}

/// Far points, up to the last coordinate, and points near zero that are then parted only at the deepest levels: the extent's side is 2^41 to 2^43.
fn far(r: &mut Random) -> Point {
    let one = |r: &mut Random| match r.below(10) {
        0 => FARTHEST,
        1 => -FARTHEST,
        2 => FARTHEST - r.pick(&[1.0, 0.5, part(13), part(12)]),
        3 => -FARTHEST + r.pick(&[1.0, 0.5, part(13), part(12)]),
        4 => f64::from_bits(FARTHEST.to_bits() - r.below(8) as u64),
        5 => signed(r, 4) * (FARTHEST / 4.0),
        6 => part(r.pick(&[19, 20, 21, 22, 22, 23, 23, 24, 25])),
        _ => signed(r, 2),
    };
    (one(r), one(r))
}

/// Any numbers that are coordinates.
fn any(r: &mut Random) -> Point {
    let mut one = || loop {
        let number = f64::from_bits(r.next());
        if is_coordinate(number) {
            return number;
        }
    };
    (one(), one())
}

/// What points are made by.
const WAYS: [fn(&mut Random) -> Point; 8] = [on_a_grid, on_a_grid, on_a_grid, spread, deep, deep, far, any];

/// A list as it grows: the edits, how many insertions there were, and the numbers of those that are there.
#[derive(Default)]
struct Growing {
    edits: Vec<[u64; EDIT]>,
    points: Vec<Point>,
    there: Vec<u64>,
    gone: Vec<u64>,
}

impl Growing {
    fn insert(&mut self, point: Point) {
        self.there.push(self.points.len() as u64);
        self.points.push(point);
        self.edits.push(insertion(point));
    }

    /// Takes out the one at this place among those that are there.
    fn remove(&mut self, r: &mut Random, at: usize) {
        let number = self.there.remove(at);
        self.gone.push(number);
        self.edits.push([1, number, r.next()]);
    }

    /// A number that isn't there: gone, not yet there, or such that its lower half is there.
    fn absent(&mut self, r: &mut Random) {
        let next = self.points.len() as u64;
        let number = match (r.below(5), self.gone.len(), self.there.len()) {
            (0 | 1, 1.., _) => self.gone[r.below(self.gone.len())],
            (2, _, 1..) => self.there[r.below(self.there.len())] + (1 << r.pick(&[12, 16, 31, 32, 33, 63])),
            (3, _, _) => r.pick(&[u64::MAX, 1 << 63, u64::MAX - 1, 4096, 1 << 32]).max(next),
            _ => next + r.pick(&[0, 0, 0, 1, 2, 10]),
        };
        self.edits.push([1, number, r.next()]);
    }
}

/// A zero's other sign.
fn other_zero(r: &mut Random, (x, y): Point) -> Point {
    let mut one = |number: f64| if number == 0.0 && r.once_in(2) { -number } else { number };
    (one(x), one(y))
}

/// For what happens once in so many times.
const NEVER: usize = usize::MAX;

/// So many edits: mostly of one way of points, with points that come again, and removals of any, the first, the last, or of all.
fn growing(r: &mut Random, n: usize) -> Growing {
    let mut list = Growing::default();
    let way = r.pick(&WAYS);
    let again = r.pick(&[2, 3, 10, 1000]);
    let stays = r.pick(&[1, 2, 2, 3, 5, 20]);
    let which = r.below(5);
    let absent = r.pick(&[NEVER, NEVER, NEVER, 30, 10, 3]);
    let empties = r.pick(&[40, 400, NEVER]);
    let other = r.pick(&[30, NEVER]);
    let mut emptying = false;
    while list.edits.len() < n {
        let there = list.there.len();
        emptying = there > 0 && (emptying || r.once_in(empties));
        if r.once_in(absent) && list.edits.len() > n / 3 {
            list.absent(r);
        } else if there == 0 || !emptying && r.below(stays + 1) < stays {
            let made = if r.once_in(other) { r.pick(&WAYS)(r) } else { way(r) };
            let point = if !list.points.is_empty() && r.once_in(again) { r.pick(&list.points) } else { made };
            let point = other_zero(r, point);
            list.insert(point);
        } else {
            let any = r.below(there);
            list.remove(r, [any, any, 0, there - 1, any.min(1)][which]);
        }
    }
    list
}

/// How many edits the case of this number has: mostly a few, of 2,000 cases once as many as are taken and once more than that.
fn count(r: &mut Random, number: usize, max: usize) -> usize {
    match (number % 2000, r.below(40)) {
        (1000, _) => MOST,
        (0, _) => MOST + r.pick(&[1, 1, 1, 2, 100, MOST]),
        (_, 0) => 0,
        (_, 1..=16) => r.below(max + 1),
        _ => (1 + r.below(10)).min(max),
    }
}

/// How many slots are lent: enough for every edit, one fewer, enough for the last, any fewer, or plenty.
fn slots(r: &mut Random, needs: &[Need]) -> usize {
    let of = |need: &Need| if let Need::Slots(nodes) = *need { nodes } else { 0 };
    let most = needs.iter().map(of).max().unwrap_or(0);
    let last = needs.last().map_or(0, of);
    match r.below(8) {
        0 | 1 => most,
        2 => most.saturating_sub(1),
        3 => last,
        4 => r.below(most + 1),
        5 => most.saturating_sub(r.below(4)),
        _ => most + r.pick(&[1, 2, 10, 70]),
    }
}

/// A kind that there is not; at times its lower part is one that there is.
fn no_kind(r: &mut Random) -> u64 {
    match r.below(3) {
        0 => r.pick(&[0, 1]) + (1 << r.pick(&[1, 8, 16, 31, 32, 63])),
        1 => r.next().max(2),
        _ => r.pick(&[2, 2, 3, u64::MAX]),
    }
}

/// The bits of a number that is no coordinate: a NaN of any payload, infinite, or beyond 2^40 by the least step or by far.
fn no_coordinate(r: &mut Random) -> u64 {
    loop {
        let bits = match r.below(6) {
            0 => f64::INFINITY.to_bits(),
            1 => 0x7ff0 << 48 | (r.next() >> r.pick(&[12, 12, 60, 63])).max(1),
            2 => FARTHEST.to_bits() + 1 + r.below(3) as u64,
            3 => (FARTHEST * r.pick(&[1.5, 2.0, 1e9, 1e290])).to_bits(),
            _ => r.next(),
        };
        let bits = bits ^ (r.below(2) as u64) << 63;
        if !is_coordinate(f64::from_bits(bits)) {
            return bits;
        }
    }
}

/// One more or one fewer, none, or any.
fn other_length(r: &mut Random, length: usize) -> usize {
    match r.below(6) {
        0 | 1 => length + 1,
        2 | 3 => length.saturating_sub(1),
        4 => 0,
        _ => r.below(2 * length + 2),
    }
}

/// A fault, if there is a place for it: a coordinate, a kind, a length, or words left over. An edit that is no insertion any more has no place in the chains' length, at times.
fn spoil(r: &mut Random, case: &mut Case) {
    let n = case.words.len() / EDIT;
    match r.below(8) {
        0 => case.rows = other_length(r, case.rows),
        1 => case.chains = other_length(r, case.chains),
        2 => {
            let more = r.pick(&[1, 2]);
            case.words.extend((0..more).map(|_| r.pick(&[0, 1, 7])));
        }
        3 if !case.words.is_empty() => case.words.truncate(case.words.len() - r.pick(&[1, 2]).min(case.words.len())),
        4 | 5 if n > 0 => {
            let at = EDIT * r.below(n);
            if case.words[at] == 0 && !r.once_in(4) {
                case.chains = case.chains.saturating_sub(1);
            }
            case.words[at] = no_kind(r);
        }
        _ if n > 0 => {
            let at = EDIT * r.below(n);
            // of an edit of another kind it is no fault
            case.words[at + 1 + r.below(2)] = no_coordinate(r);
        }
        _ => {}
    }
}

/// How many faults: mostly none, at times several, so that the order of the tests shows.
fn faults(r: &mut Random, n: usize) -> usize {
    match r.below(8) {
        _ if n > MOST => r.below(4),
        0 => 1,
        1 => 2 + r.below(3),
        _ => 0,
    }
}

fn case(r: &mut Random, number: usize, max: usize) -> Case {
    let n = count(r, number, max);
    let list = growing(r, n);
    let slots = if n > MOST { r.below(10) } else { slots(r, &needs(&edits_of(&list.edits.concat()), false)) };
    let mut case = lent(&list.edits, slots, r.pick(&[0, 0, 1, 4, 7, 7]));
    for _ in 0..faults(r, n) {
        spoil(r, &mut case);
    }
    case
}

/// `every`, which is `every 5`, `every MOST`, `long`, or `SEED COUNT MAX`; whether nothing differs, and none for other words.
pub fn run(words: &[&str]) -> Option<bool> {
    match *words {
        ["every"] => Some(hold(every(5))),
        ["every", most] => Some(hold(every(most.parse().ok().filter(|&most| most < 10)?))),
        ["long"] => Some(hold(long().into_iter())),
        _ => crate::random(words, case).map(hold),
    }
}
