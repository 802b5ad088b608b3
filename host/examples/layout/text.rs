//! How much room a name takes: its words stand below each other, inside the label's disc.

/// Of a size of 1, in a usual sans-serif: a letter's width, generously, and a line's height.
const LETTER: f64 = 0.62;
const LINE: f64 = 1.1;

/// How far a disc reaches beyond the corners of its text.
const MARGIN: f64 = 1.06;

/// The greatest size of a short name, for a disc of radius 1.
const GREATEST: f64 = 0.85;

/// The lines of a name.
pub fn lines(name: &str) -> Vec<&str> {
    name.split(' ').collect()
}

/// The radius of a disc that holds a name of size 1.
fn reach(name: &str) -> f64 {
    let lines = lines(name);
    let longest = lines.iter().map(|line| line.chars().count()).max().unwrap_or(0);
    let (width, height) = (longest as f64 * LETTER, lines.len() as f64 * LINE);
    // by the root, since machines differ in the last bits of `hypot`
    MARGIN * (width * width + height * height).sqrt() / 2.0
}

/// The radius that a name of this size needs.
pub fn radius(name: &str, size: f64) -> f64 {
    size * reach(name)
}

/// The size at which a name stays inside its disc.
pub fn size(name: &str, radius: f64) -> f64 {
    radius * GREATEST.min(1.0 / reach(name))
}

/// How far below the middle of a name of size 1 the letters of a line stand.
pub fn foot(line: usize, lines: usize) -> f64 {
    (line as f64 - (lines as f64 - 1.0) / 2.0) * LINE + 0.35
}
