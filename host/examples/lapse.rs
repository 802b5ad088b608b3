// A chart before and after leases lapse, with the cells of both trees: docs/lapse.svg is what this writes to the standard output.
use talemiku::{edits, rows, Edits, Refusal, ROW_NUMBERS, SLOT_WORDS};

/// An invented roadstead: names, metres east and metres north.
const LABELS: [(&str, f64, f64); 17] = [
    ("harbour office", 210.0, 160.0),
    ("north mole", 350.0, 300.0),
    ("light", 400.0, 370.0),
    ("pilots", -20.0, -80.0),
    ("fog signal", 400.0, 370.0),
    ("customs", 262.0, 140.0),
    ("slip", 240.0, 100.0),
    ("buoy 4", 88.0, 62.0),
    ("buoy 5", 118.0, 38.0),
    ("buoy 6", 126.0, 86.0),
    ("ferry", 60.0, 215.0),
    ("fuel", 34.0, 190.0),
    ("yachts", 102.0, 190.0),
    ("chapel", 310.0, 220.0),
    ("crane", 258.0, 196.0),
    ("wreck", 20.0, 330.0),
    ("anchorage", 110.0, 352.0),
];

/// Those whose leases lapse, by number: the first of the two at the light, the far one in the south-west, some close together.
const LAPSED: [usize; 7] = [2, 3, 8, 9, 11, 12, 14];

/// A pane shows the root's cell, in so many steps from side to side; around it are gaps and lines of words.
const SIDE: i64 = 512;
const GAP: i64 = 36;
const BAND: i64 = 44;
const SLOTS: usize = 1 + 64 * LABELS.len();

const STYLE: &str = "\
text{text-anchor:middle;fill:#35526b;font-size:15px} .title{font-size:22px} .name{font-size:12px;fill:#1c2b36}
.paper{fill:#fff} .cell{fill:none;stroke:#b8c4ce} .leaf{fill:#bcd9ee;fill-opacity:.5;stroke:#7f9db5}
.gone{fill:none;stroke:#c0562b;stroke-dasharray:2 2} circle{fill:#35526b}";

fn main() -> Result<(), Refusal> {
    print!("{}", picture()?);
    Ok(())
}

/// Both panes, in the same extent: all labels, and those that stay.
fn picture() -> Result<String, Refusal> {
    let mut list = Edits::new();
    for (_, east, north) in LABELS {
        list.insert(east, north);
    }
    let before = pane(GAP, "all leases", &list, &[])?;
    for number in LAPSED {
        list.remove(number);
    }
    let after = pane(2 * GAP + SIDE, "seven have lapsed", &list, &LAPSED)?;
    let (width, height) = (2 * SIDE + 3 * GAP, SIDE + 2 * BAND);
    let size = format!("width=\"{width}\" height=\"{height}\"");
    Ok(format!(
        "<svg xmlns=\"http://www.w3.org/2000/svg\" {size} viewBox=\"0 0 {width} {height}\" font-family=\"sans-serif\">\n\
        <style>{STYLE}</style>\n<rect class=\"paper\" {size}/>\n{before}{after}</svg>\n",
    ))
}

/// The tree that these edits leave: its cells, the labels of its leaves, and where those stood that are gone.
fn pane(left: i64, title: &str, list: &Edits, gone: &[usize]) -> Result<String, Refusal> {
    let (mut nodes, mut chains, mut work) = (vec![0; SLOTS * ROW_NUMBERS], vec![0; list.insertions()], vec![0; SLOTS * SLOT_WORDS]);
    let tree = edits(list, &mut nodes, &mut chains, &mut work)?;
    let extent = tree.extent;
    let step = SIDE as f64 / (extent.x1 - extent.x0);
    let place = |number: usize| (((LABELS[number].1 - extent.x0) * step) as i64, ((extent.y1 - LABELS[number].2) * step) as i64);
    // the cells from the root to the one before: their left and upper ends, north being up
    let mut way = vec![(0, 0)];
    let mut first = 0;
    let (mut cells, mut labels) = (String::new(), String::new());
    for row in rows(&nodes).take(tree.nodes) {
        let side = SIDE >> row.level;
        if row.level > 0 {
            way.truncate(row.level as usize);
            let (x, y) = way[way.len() - 1];
            way.push((if row.quadrant % 2 == 0 { x } else { x + side }, if row.quadrant < 2 { y + side } else { y }));
        }
        let (x, y) = way[way.len() - 1];
        let class = if row.kind == 2 { "leaf" } else { "cell" };
        cells += &format!("<rect class=\"{class}\" x=\"{x}\" y=\"{y}\" width=\"{side}\" height=\"{side}\"/>\n");
        if row.kind == 2 {
            let chain = &chains[first..first + row.chain as usize];
            first += chain.len();
            let names: Vec<&str> = chain.iter().map(|&number| LABELS[number as usize].0).collect();
            let (x, y) = place(chain[0] as usize);
            labels += &format!(
                "<circle cx=\"{x}\" cy=\"{y}\" r=\"4\"/><text class=\"name\" x=\"{x}\" y=\"{}\">{}</text>\n",
                y - 8,
                names.join(", ")
            );
        }
    }
    let left_out: String = gone
        .iter()
        .map(|&number| place(number))
        .map(|(x, y)| format!("<circle class=\"gone\" cx=\"{x}\" cy=\"{y}\" r=\"6\"/>\n"))
        .collect();
    let middle = left + SIDE / 2;
    Ok(format!(
        "<text class=\"title\" x=\"{middle}\" y=\"30\">{title}</text>\n\
        <svg x=\"{left}\" y=\"{BAND}\" width=\"{SIDE}\" height=\"{SIDE}\" overflow=\"visible\">\n{cells}{left_out}{labels}</svg>\n\
        <text x=\"{middle}\" y=\"{}\">{first} labels, {} cells, from {} {} to {} {}</text>\n",
        BAND + SIDE + 28,
        tree.nodes,
        extent.x0,
        extent.y0,
        extent.x1,
        extent.y1,
    ))
}
