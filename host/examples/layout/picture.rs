//! The picture: a chart before and after its ticks, as SVG. Tree cells, links, and labels with their names; held labels in another colour.
use crate::cells::cells;
use crate::chart::Chart;
use crate::spread::Spread;
use crate::text;
use crate::view::{View, WIDTH};
use std::fmt;
use talemiku::{particles_of, Extent, Particle, Refusal};

/// How far panes stay from each other and from the picture's edge, and the height of a line of words above or below them.
const GAP: f64 = 16.0;
const BAND: f64 = 44.0;

/// What is smaller can't be seen, or read, so it is left out.
const LEAST_CELL: f64 = 1.0;
const LEAST_PRINT: f64 = 4.0;

const STYLE: &str = "\
text{text-anchor:middle;fill:#1c2b36;paint-order:stroke;stroke:#fff;stroke-opacity:.7;stroke-width:2} .title{font-size:22px;fill:#35526b} .key{font-size:18px;text-anchor:start;fill:#35526b}
.paper{fill:#fff} .pane{fill:#f4f8fb;stroke:#b8c4ce} .cells{fill:none;stroke:#b9c6d0} line{stroke:#8a5a2b;stroke-width:3}
circle{stroke:#35526b;fill:#bcd9ee;fill-opacity:.8} .held{fill:#f2b98a}";

/// A number with two decimals at most.
struct Short(f64);

impl fmt::Display for Short {
    fn fmt(&self, f: &mut fmt::Formatter<'_>) -> fmt::Result {
        let digits = format!("{:.2}", self.0);
        let digits = digits.trim_end_matches('0').trim_end_matches('.');
        f.write_str(if digits == "-0" { "0" } else { digits })
    }
}

/// Draws a chart before and after, with so many overlapping pairs.
pub fn draw(chart: &Chart, done: &Spread, pairs: [usize; 2]) -> Result<String, Refusal> {
    let sheets = [&chart.sheet, &done.sheet];
    let when = ["before".to_string(), format!("after {} ticks", done.ticks)];
    let places = sheets.map(|sheet| particles_of(sheet));
    let view = View::of(places.iter().flat_map(|places| places.iter().zip(&chart.radii)));
    let (width, height) = (Short(2.0 * WIDTH + 3.0 * GAP), Short(view.height + 2.0 * BAND));
    let size = format!("width=\"{width}\" height=\"{height}\"");
    let mut svg = format!(
        "<svg xmlns=\"http://www.w3.org/2000/svg\" {size} viewBox=\"0 0 {width} {height}\" font-family=\"sans-serif\">\n\
        <style>{STYLE}</style>\n<rect class=\"paper\" {size}/>\n"
    );
    for k in 0..2 {
        let cells = cells(sheets[k], places[k].len())?;
        let drawn = squares(&cells, &view) + &links(chart, &places[k], &view) + &labels(chart, &places[k], &view);
        svg += &pane(GAP + k as f64 * (WIDTH + GAP), view.height, &format!("{}: {}", when[k], counted(pairs[k])), &drawn);
    }
    Ok(svg + &key(view.height + 1.5 * BAND) + "</svg>\n")
}

/// A pane with its title above it; what reaches beyond its edge isn't seen.
fn pane(left: f64, height: f64, title: &str, drawn: &str) -> String {
    let [left, middle, height, foot] = [left, left + WIDTH / 2.0, height, BAND * 0.66].map(Short);
    format!(
        "<text class=\"title\" x=\"{middle}\" y=\"{foot}\">{title}</text>\n\
        <svg x=\"{left}\" y=\"{BAND}\" width=\"{WIDTH}\" height=\"{height}\">\n\
        <rect class=\"pane\" width=\"100%\" height=\"100%\"/>\n{drawn}</svg>\n"
    )
}

fn counted(pairs: usize) -> String {
    match pairs {
        0 => "no labels overlap".to_string(),
        1 => "1 pair of labels overlaps".to_string(),
        _ => format!("{pairs} pairs of labels overlap"),
    }
}

/// All cells as one path.
fn squares(cells: &[Extent], view: &View) -> String {
    let square = |cell: &Extent| {
        let side = view.length(cell.x1 - cell.x0);
        let (x, y) = (view.x(cell.x0), view.y(cell.y0));
        let seen = side >= LEAST_CELL && x < WIDTH && y < view.height && x + side > 0.0 && y + side > 0.0;
        let [x, y, side, back] = [x, y, side, -side].map(Short);
        seen.then(|| format!("M{x} {y}h{side}v{side}h{back}z"))
    };
    format!("<path class=\"cells\" d=\"{}\"/>\n", cells.iter().filter_map(square).collect::<Vec<_>>().join("\n"))
}

fn links(chart: &Chart, places: &[Particle], view: &View) -> String {
    let line = |ends: &[u32]| {
        let [a, b] = [ends[0], ends[1]].map(|end| &places[end as usize]);
        let [x1, y1, x2, y2] = [view.x(a.x), view.y(a.y), view.x(b.x), view.y(b.y)].map(Short);
        format!("<line x1=\"{x1}\" y1=\"{y1}\" x2=\"{x2}\" y2=\"{y2}\"/>\n")
    };
    chart.links.chunks_exact(2).map(line).collect()
}

fn labels(chart: &Chart, places: &[Particle], view: &View) -> String {
    let label = |number: usize| {
        let (place, radius, name) = (&places[number], view.length(chart.radii[number]), &chart.names[number]);
        let (x, y) = (view.x(place.x), view.y(place.y));
        let class = if place.flags == 0 { "" } else { " class=\"held\"" };
        let disc = format!("<circle{class} cx=\"{}\" cy=\"{}\" r=\"{}\"/>", Short(x), Short(y), Short(radius));
        disc + &printed(name, x, y, text::size(name, radius)) + "\n"
    };
    (0..places.len()).map(label).collect()
}

/// A name around a place, its words below each other.
fn printed(name: &str, x: f64, y: f64, size: f64) -> String {
    if size < LEAST_PRINT {
        return String::new();
    }
    let lines = text::lines(name);
    let line = |(k, words): (usize, &&str)| {
        let foot = y + size * text::foot(k, lines.len());
        format!("<text x=\"{}\" y=\"{}\" font-size=\"{}\">{words}</text>", Short(x), Short(foot), Short(size))
    };
    lines.iter().enumerate().map(line).collect()
}

/// What is what, in a line around y.
fn key(y: f64) -> String {
    let foot = y + 6.0;
    let [top, disc] = [y - 9.0, y].map(Short);
    format!(
        "<circle cx=\"32\" cy=\"{disc}\" r=\"9\"/><text class=\"key\" x=\"48\" y=\"{foot}\">label</text>\n\
        <circle class=\"held\" cx=\"132\" cy=\"{disc}\" r=\"9\"/><text class=\"key\" x=\"148\" y=\"{foot}\">label held in x</text>\n\
        <line x1=\"302\" y1=\"{disc}\" x2=\"332\" y2=\"{disc}\"/><text class=\"key\" x=\"342\" y=\"{foot}\">link</text>\n\
        <path class=\"cells\" d=\"M412 {top}h18v18h-18z\"/><text class=\"key\" x=\"440\" y=\"{foot}\">cell of the tree</text>\n",
        foot = Short(foot)
    )
}
