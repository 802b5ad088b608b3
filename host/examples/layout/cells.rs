//! The cells of a sheet's tree.
use talemiku::{rows, tree, Extent, Refusal, ROW_NUMBERS, SLOT_WORDS};

/// The cell of every node, parent first.
pub fn cells(sheet: &[u8], labels: usize) -> Result<Vec<Extent>, Refusal> {
    let slots = crate::spread::slots(labels);
    let (mut nodes, mut chains, mut work) = (vec![0; slots * ROW_NUMBERS], vec![0; labels], vec![0; slots * SLOT_WORDS]);
    let made = tree(sheet, &mut nodes, &mut chains, &mut work)?;
    // the node in hand and all above it, root first
    let mut path: Vec<Extent> = Vec::new();
    let cell = |row: talemiku::Row| {
        path.truncate(row.level as usize);
        let cell = path.last().map_or(made.extent, |parent| quarter(parent, row.quadrant));
        path.push(cell);
        cell
    };
    Ok(rows(&nodes[..made.nodes * ROW_NUMBERS]).map(cell).collect())
}

/// A quarter of a cell: 1 and 3 have the greater x, 2 and 3 the greater y.
fn quarter(cell: &Extent, quadrant: u32) -> Extent {
    let half = |low: f64, high: f64, upper: bool| {
        let middle = (low + high) / 2.0;
        if upper {
            (middle, high)
        } else {
            (low, middle)
        }
    };
    let (x0, x1) = half(cell.x0, cell.x1, quadrant & 1 != 0);
    let (y0, y1) = half(cell.y0, cell.y1, quadrant & 2 != 0);
    Extent { x0, y0, x1, y1 }
}
