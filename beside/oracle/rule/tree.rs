//! Cells, the extent by covering, the tree by the cell rule, and both walks as recursion.

use super::number::floor;
use crate::refusal::{refuse, Refusal};

pub type Point = [f64; 2];

// ---- cells

#[derive(Clone, Copy)]
pub struct Cell {
    pub x0: f64,
    pub y0: f64,
    pub x1: f64,
    pub y1: f64,
}

impl Cell {
    fn middle(&self) -> Point {
        [(self.x0 + self.x1) / 2.0, (self.y0 + self.y1) / 2.0]
    }

    /// 2 if y >= ym, plus 1 if x >= xm.
    fn quadrant(&self, p: Point) -> usize {
        let [xm, ym] = self.middle();
        2 * (p[1] >= ym) as usize + (p[0] >= xm) as usize
    }

    /// The cell of the child in a quadrant.
    fn quarter(&self, quadrant: usize) -> Cell {
        let [xm, ym] = self.middle();
        let (x0, x1) = if quadrant % 2 == 0 { (self.x0, xm) } else { (xm, self.x1) };
        let (y0, y1) = if quadrant < 2 { (self.y0, ym) } else { (ym, self.y1) };
        Cell { x0, y0, x1, y1 }
    }

    fn holds(&self, [x, y]: Point) -> bool {
        self.x0 <= x && x < self.x1 && self.y0 <= y && y < self.y1
    }
}

/// The extent after one point more.
fn cover(extent: Option<Cell>, p: Point) -> Cell {
    let [x, y] = p.map(floor);
    let mut c = match extent {
        None => return Cell { x0: x, y0: y, x1: x + 1.0, y1: y + 1.0 },
        Some(c) => c,
    };
    let mut z = c.x1 - c.x0;
    while !c.holds([x, y]) {
        z *= 2.0;
        let (below, left) = (y < c.y0, x < c.x0);
        c = Cell {
            x0: if left { c.x1 - z } else { c.x0 },
            y0: if below { c.y1 - z } else { c.y0 },
            x1: if left { c.x1 } else { c.x0 + z },
            y1: if below { c.y1 } else { c.y0 + z },
        };
    }
    c
}

pub fn extent(points: &[Point]) -> Option<Cell> {
    points.iter().fold(None, |c, &p| Some(cover(c, p)))
}

// ---- the cell rule

/// A node: its cell, what a force keeps in it, and its chain or its children.
pub struct Tree<V> {
    pub cell: Cell,
    pub value: V,
    pub below: Below<V>,
}

pub enum Below<V> {
    Chain(Vec<usize>),
    Children([Option<Box<Tree<V>>>; 4]),
}

/// A tree that would pass level 64.
struct TooDeep;

/// The node of a cell at this level that holds these of the points.
fn grow(points: &[Point], cell: Cell, level: usize, members: Vec<usize>) -> Result<Option<Tree<()>>, TooDeep> {
    if members.is_empty() {
        return Ok(None);
    }
    if members.iter().all(|&i| points[i] == points[members[0]]) {
        return Ok(Some(Tree { cell, value: (), below: Below::Chain(members) }));
    }
    if level == 64 {
        return Err(TooDeep);
    }
    let mut children = [None, None, None, None];
    for (q, child) in children.iter_mut().enumerate() {
        let inside = members.iter().copied().filter(|&i| cell.quadrant(points[i]) == q).collect();
        *child = grow(points, cell.quarter(q), level + 1, inside)?.map(Box::new);
    }
    Ok(Some(Tree { cell, value: (), below: Below::Children(children) }))
}

fn tree_of(points: &[Point]) -> Result<Option<Tree<()>>, TooDeep> {
    match extent(points) {
        None => Ok(None),
        Some(cell) => grow(points, cell, 0, (0..points.len()).collect()),
    }
}

/// The tree of the points, or 6 or 7 at the earliest whose prefix breaks either.
pub fn build(points: &[Point], slots: usize) -> Result<Option<Tree<()>>, Refusal> {
    let mut last = None;
    for i in 0..points.len() {
        last = match tree_of(&points[..=i]) {
            Err(TooDeep) => return refuse(6, i),
            Ok(tree) if nodes(&tree) > slots => return refuse(7, i),
            Ok(tree) => tree,
        };
    }
    Ok(last)
}

fn nodes(tree: &Option<Tree<()>>) -> usize {
    fn of(tree: &Tree<()>) -> usize {
        1 + children(tree).map(of).sum::<usize>()
    }
    tree.as_ref().map_or(0, of)
}

/// The children that are there, in order.
pub fn children<V>(tree: &Tree<V>) -> impl Iterator<Item = &Tree<V>> {
    let all: &[Option<Box<Tree<V>>>] = match &tree.below {
        Below::Chain(_) => &[],
        Below::Children(children) => children,
    };
    all.iter().flatten().map(|child| &**child)
}

/// The tree with a value in each node: a leaf's from its chain, an internal node's from its children's.
pub fn valued<V>(tree: Tree<()>, leaf: &impl Fn(&[usize]) -> V, internal: &impl Fn(&[&V]) -> V) -> Tree<V> {
    match tree.below {
        Below::Chain(chain) => Tree { cell: tree.cell, value: leaf(&chain), below: Below::Chain(chain) },
        Below::Children(children) => {
            let children = children.map(|child| child.map(|child| Box::new(valued(*child, leaf, internal))));
            let values: Vec<&V> = children.iter().flatten().map(|child| &child.value).collect();
            Tree { cell: tree.cell, value: internal(&values), below: Below::Children(children) }
        }
    }
}

// ---- walks

#[derive(PartialEq)]
pub enum Visit {
    Continue,
    Skip,
}

/// Parent first, children 0 to 3; `Skip` leaves out what lies below.
pub fn walk<V>(tree: &Tree<V>, meet: &mut impl FnMut(&Tree<V>) -> Result<Visit, Refusal>) -> Result<(), Refusal> {
    if meet(tree)? == Visit::Continue {
        for child in children(tree) {
            walk(child, meet)?;
        }
    }
    Ok(())
}

/// Parent last, children 0 to 3.
pub fn walk_after<V>(tree: &Tree<V>, meet: &mut impl FnMut(&Tree<V>)) {
    for child in children(tree) {
        walk_after(child, meet);
    }
    meet(tree);
}
