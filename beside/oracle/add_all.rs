//! Stands where the folder lacks add_all.rs: reads a tree's nodes and chains, parent first, and numbers its nodes.

use super::{Node, Quadtree, Store};

/// A node: its level, its quadrant, and the values of its chain (none for an internal node).
pub struct Row {
    pub level: usize,
    pub quadrant: usize,
    pub chain: Vec<usize>,
}

impl<Q: Default> Quadtree<Q, usize> {
    pub fn rows(&self) -> Vec<Row> {
        let mut rows = Vec::new();
        if let Some(root) = self.root() {
            list(root, 0, 0, &mut rows);
        }
        rows
    }
}

impl<Q: Default> Quadtree<Q, usize> {
    /// The nodes as the tree call lists them: level, quadrant, kind (1 internal, 2 leaf) and chain length of each, and the numbers of the chains.
    pub fn list_flat(&self, rows: &mut Vec<u32>, chains: &mut Vec<u32>) {
        if let Some(root) = self.root() {
            list_flat_from(root, 0, 0, rows, chains);
        }
    }
}

fn list_flat_from<Q>(node: &Node<Q, usize>, level: u32, quadrant: u32, rows: &mut Vec<u32>, chains: &mut Vec<u32>) {
    match node {
        Node::Leaf { data, .. } => {
            let before = chains.len();
            chains.extend(data.iter().map(|&i| i as u32));
            rows.extend([level, quadrant, 2, (chains.len() - before) as u32]);
        }
        Node::Internal { children, .. } => {
            rows.extend([level, quadrant, 1, 0]);
            for (q, child) in children.iter().enumerate() {
                if let Some(child) = child {
                    list_flat_from(child, level + 1, q as u32, rows, chains);
                }
            }
        }
    }
}

fn list<Q>(node: &Node<Q, usize>, level: usize, quadrant: usize, rows: &mut Vec<Row>) {
    match node {
        Node::Leaf { data, .. } => rows.push(Row { level, quadrant, chain: data.iter().copied().collect() }),
        Node::Internal { children, .. } => {
            rows.push(Row { level, quadrant, chain: Vec::new() });
            for (q, child) in children.iter().enumerate() {
                if let Some(child) = child {
                    list(child, level + 1, q, rows);
                }
            }
        }
    }
}

impl<T> Quadtree<usize, T> {
    /// Gives every node its number as value: 0 for the root, then on, parent first.
    pub fn number(&mut self) {
        if let Some(root) = self.root.as_deref() {
            number_from(root, 0, &mut self.store);
        }
    }
}

/// Numbers a node and what lies below it; answers the next number.
fn number_from<T>(node: &Node<usize, T>, first: usize, store: &mut Store<usize>) -> usize {
    *store.get_mut(node.handle()) = first;
    let mut next = first + 1;
    if let Node::Internal { children, .. } = node {
        for child in children.iter().flatten() {
            next = number_from(child, next, store);
        }
    }
    next
}
