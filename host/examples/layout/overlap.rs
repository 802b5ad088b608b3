//! Which labels print over each other.
use talemiku::Particle;

/// How many pairs of discs have a point inside both.
pub fn overlapping(places: &[Particle], radii: &[f64]) -> usize {
    let over = |a: usize, b: usize| {
        let (x, y, reach) = (places[a].x - places[b].x, places[a].y - places[b].y, radii[a] + radii[b]);
        x * x + y * y < reach * reach
    };
    (0..places.len()).map(|b| (0..b).filter(|&a| over(a, b)).count()).sum()
}
