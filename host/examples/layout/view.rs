//! How places on a chart become places in a pane of the picture.
use talemiku::Particle;

/// How wide a pane is, and how high at least and at most.
pub const WIDTH: f64 = 640.0;
const HEIGHTS: (f64, f64) = (240.0, 960.0);

/// How far discs stay from a pane's edge.
const MARGIN: f64 = 8.0;

/// The part of a chart that a pane shows: its middle and its scale.
pub struct View {
    x: f64,
    y: f64,
    scale: f64,
    /// How high a pane is.
    pub height: f64,
}

impl View {
    /// Shows all these discs, or some place where there are none.
    pub fn of<'a>(discs: impl Iterator<Item = (&'a Particle, &'a f64)>) -> View {
        let ends = |at: f64, radius: f64| (at - radius, at + radius);
        let wider = |a: (f64, f64), b: (f64, f64)| (a.0.min(b.0), a.1.max(b.1));
        let around = discs.map(|(place, &radius)| (ends(place.x, radius), ends(place.y, radius)));
        let (across, down) = around.reduce(|a, b| (wider(a.0, b.0), wider(a.1, b.1))).unwrap_or_default();
        // a single point has no size, but the scale is to be finite
        let size = |ends: (f64, f64)| (ends.1 - ends.0).max(1e-9);
        let scale = ((WIDTH - 2.0 * MARGIN) / size(across)).min((HEIGHTS.1 - 2.0 * MARGIN) / size(down));
        let middle = |ends: (f64, f64)| (ends.0 + ends.1) / 2.0;
        View { x: middle(across), y: middle(down), scale, height: (scale * size(down) + 2.0 * MARGIN).max(HEIGHTS.0) }
    }

    pub fn x(&self, x: f64) -> f64 {
        WIDTH / 2.0 + (x - self.x) * self.scale
    }

    pub fn y(&self, y: f64) -> f64 {
        self.height / 2.0 + (y - self.y) * self.scale
    }

    pub fn length(&self, length: f64) -> f64 {
        length * self.scale
    }
}
