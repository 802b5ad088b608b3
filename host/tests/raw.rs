//! The structs of the entries in memory: how long each is, and at which byte each field begins. The crate itself doesn't compile where they lie otherwise.
use std::mem::size_of_val;
use talemiku::raw::{Counts, Extent, FloorAnswer, Particle, Refusal, StepAnswer, TreeAnswer};

/// The bytes of a struct, and those at which these fields begin.
macro_rules! laid {
    ($value:expr, $($field:ident),+) => {{
        let value = $value;
        let begin = std::ptr::addr_of!(value) as usize;
        (size_of_val(&value), vec![$(std::ptr::addr_of!(value.$field) as usize - begin),+])
    }};
}

const NONE: Refusal = Refusal { number: 0, place: 0 };
const POINT: Extent = Extent { x0: 0.0, y0: 0.0, x1: 0.0, y1: 0.0 };

#[test]
fn fields_follow_each_other() {
    assert_eq!(laid!(NONE, number, place), (16, vec![0, 8]));
    assert_eq!(laid!(POINT, x0, y0, x1, y1), (32, vec![0, 8, 16, 24]));
    assert_eq!(laid!(Particle::at(0.0, 0.0), x, y, vx, vy, flags), (40, vec![0, 8, 16, 24, 32]));
    assert_eq!(laid!(FloorAnswer { refusal: NONE, value: 0 }, refusal, value), (24, vec![0, 16]));
    assert_eq!(laid!(TreeAnswer { refusal: NONE, nodes: 0, extent: POINT }, refusal, nodes, extent), (56, vec![0, 16, 24]));
    assert_eq!(laid!(Counts { refusal: NONE, visits: 0, draws: 0 }, refusal, visits, draws), (32, vec![0, 16, 24]));
    let step = StepAnswer { refusal: NONE, ticks: 0, finished: 0, visits: 0, draws: 0 };
    assert_eq!(laid!(step, refusal, ticks, finished, visits, draws), (48, vec![0, 16, 24, 32, 40]));
}
