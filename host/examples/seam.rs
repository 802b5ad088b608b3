// An outline across 180 degrees, drawn as it came and as it is unwrapped: docs/seam.svg is what this writes to the standard output.
use talemiku::{unwrap, Refusal, HALF_TURN};

/// A degree in the units of longitudes.
const DEGREE: i64 = 10_000_000;

/// An invented fishing ground: degrees east and degrees north of each corner.
const GROUND: [(i64, i64); 11] =
    [(152, 20), (166, 30), (178, 24), (-168, 32), (-150, 22), (-142, 2), (-152, -16), (-166, -10), (-178, -26), (170, -20), (156, -4)];

/// A pane shows a whole turn, and 60 degrees north and south, in the same measure; around it are gaps and lines of words.
const WIDTH: i64 = 630;
const HEIGHT: i64 = 210;
const GAP: i64 = 36;
const BAND: i64 = 44;

const STYLE: &str = "\
text{text-anchor:middle;fill:#35526b;font-size:15px} .title{font-size:22px} .corner{font-size:12px;fill:#1c2b36}
.paper{fill:#fff} .pane{fill:#f4f8fb;stroke:#b8c4ce} .net{fill:none;stroke:#d5dee6} .seam{stroke:#c0562b;stroke-width:2;stroke-dasharray:7 5}
.ground{fill:#bcd9ee;fill-opacity:.7;stroke:#35526b;stroke-width:2;stroke-linejoin:round} circle{fill:#fff;stroke:#35526b}";

fn main() -> Result<(), Refusal> {
    print!("{}", picture()?);
    Ok(())
}

/// Both panes: the left one from -180 degrees to 180, the right one a half turn to either side of its centre, 180 degrees.
fn picture() -> Result<String, Refusal> {
    let came = GROUND.map(|(east, _)| east * DEGREE);
    let mut unwrapped = came;
    unwrap(&came, HALF_TURN, &mut unwrapped)?;
    let (width, height) = (2 * WIDTH + 3 * GAP, HEIGHT + 2 * BAND);
    let size = format!("width=\"{width}\" height=\"{height}\"");
    Ok(format!(
        "<svg xmlns=\"http://www.w3.org/2000/svg\" {size} viewBox=\"0 0 {width} {height}\" font-family=\"sans-serif\">\n\
        <style>{STYLE}</style>\n<rect class=\"paper\" {size}/>\n{}{}</svg>\n",
        pane(GAP, "as it came", -HALF_TURN, &came),
        pane(2 * GAP + WIDTH, "unwrapped round 180 degrees", 0, &unwrapped),
    ))
}

/// The ground by these numbers, in a pane that begins at the longitude `west`.
fn pane(left: i64, title: &str, west: i64, numbers: &[i64]) -> String {
    let x = |number: i64| (number - west) * WIDTH / (2 * HALF_TURN);
    let y = |north: i64| (60 - north) * HEIGHT / 120;
    let places: Vec<(i64, i64)> = numbers.iter().zip(GROUND).map(|(&number, (_, north))| (x(number), y(north))).collect();
    let ground: Vec<String> = places.iter().map(|(x, y)| format!("{x} {y}")).collect();
    let corner = |(k, (x, y)): (usize, &(i64, i64))| {
        format!("<circle cx=\"{x}\" cy=\"{y}\" r=\"9\"/><text class=\"corner\" x=\"{x}\" y=\"{}\">{k}</text>\n", y + 4)
    };
    let corners: String = places.iter().enumerate().map(corner).collect();
    let degrees = (0..=6).map(|k| west / DEGREE + 60 * k);
    let names: String =
        degrees.map(|east| format!("<text x=\"{}\" y=\"{}\">{east}</text>", left + x(east * DEGREE), BAND + HEIGHT + 22)).collect();
    let net: String = (1..12)
        .map(|k| format!("M{} 0v{HEIGHT}", k * WIDTH / 12))
        .chain((1..4).map(|k| format!("M0 {}h{WIDTH}", k * HEIGHT / 4)))
        .collect();
    let seams: String = [-HALF_TURN, HALF_TURN]
        .iter()
        .filter(|&&seam| (west..=west + 2 * HALF_TURN).contains(&seam))
        .map(|&seam| format!("<line class=\"seam\" x1=\"{0}\" y1=\"0\" x2=\"{0}\" y2=\"{HEIGHT}\"/>\n", x(seam)))
        .collect();
    format!(
        "<text class=\"title\" x=\"{}\" y=\"30\">{title}</text>\n\
        <svg x=\"{left}\" y=\"{BAND}\" width=\"{WIDTH}\" height=\"{HEIGHT}\" overflow=\"visible\">\n\
        <rect class=\"pane\" width=\"100%\" height=\"100%\"/>\n<path class=\"net\" d=\"{net}\"/>\n\
        <path class=\"ground\" d=\"M{}z\"/>\n{seams}{corners}</svg>\n{names}\n",
        left + WIDTH / 2,
        ground.join("L"),
    )
}
