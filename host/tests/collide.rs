//! Collide through the archive: T10, refusals, and every lent byte.
mod fence;
mod force;

use force::{buffer, push, push_from, Pushed};
use talemiku::{collide, Refusal};

const SIDE: [f64; 4] = [0.0, 0.0, 1.0, 0.0];

fn act(places: &[f64], radii: &[f64], iterations: usize, slots: usize, draws: &[f64]) -> Pushed {
    push(places, &vec![0.0; places.len()], slots, draws, |points, lent| collide(points, radii, 1.0, iterations, lent))
}

#[test]
fn t10() {
    assert_eq!(act(&SIDE, &[1.0, 1.0], 1, 3, &[0.0]), Ok((6, 1, vec![-0.5, 0.0, 0.5, 0.0])));
    assert_eq!(act(&SIDE, &[1.0, 1.0], 1, 3, &[]), Err(Refusal::Draws));
}

#[test]
fn no_tree_where_there_is_no_iteration() {
    assert_eq!(act(&SIDE, &[1.0, 1.0], 0, 0, &[]), Ok((0, 0, vec![0.0; 4])));
    assert_eq!(act(&[0.0, 0.0, 0.5f64.powi(65), 0.0], &[1.0, 1.0], 0, 0, &[]), Ok((0, 0, vec![0.0; 4])));
}

#[test]
fn coincident_particles_do_nothing() {
    assert_eq!(act(&[0.0; 4], &[1.0, 1.0], 1, 1, &[]), Ok((2, 0, vec![0.0; 4])));
}

#[test]
fn trees_that_do_not_fit() {
    assert_eq!(act(&SIDE, &[1.0, 1.0], 1, 2, &[]), Err(Refusal::Slots { particle: 1 }));
    assert_eq!(act(&[0.0, 0.0, 0.5f64.powi(65), 0.0], &[1.0, 1.0], 1, 99, &[]), Err(Refusal::Level { particle: 1 }));
}

#[test]
fn refused_before_work() {
    assert_eq!(act(&vec![0.0; 2 * 4097], &[], 1, 9, &[]), Err(Refusal::TooMany));
    assert_eq!(act(&SIDE, &[], 65, 9, &[]), Err(Refusal::TooMany));
    assert_eq!(act(&SIDE, &[1.0; 3], 1, 9, &[]), Err(Refusal::Lengths));
    assert_eq!(act(&SIDE[..3], &[1.0], 1, 9, &[]), Err(Refusal::Lengths));
    assert_eq!(act(&[0.0, f64::NAN, 0.0, 0.0], &[-1.0; 2], 1, 9, &[]), Err(Refusal::Coordinate { particle: 0 }));
    assert_eq!(act(&SIDE, &[1.0, -1.0], 1, 9, &[2.0]), Err(Refusal::Number { place: 1 }));
    assert_eq!(act(&SIDE, &[1.0, 1.0], 1, 9, &[0.0, f64::NAN]), Err(Refusal::Number { place: 1 }));
    let strong = push(&SIDE, &[0.0; 4], 9, &[], |points, lent| collide(points, &[1.0, 1.0], f64::INFINITY, 1, lent));
    assert_eq!(strong, Err(Refusal::Number { place: 0 }));
    let whole = buffer(&[0.0; 4]);
    for start in [whole.len() - 31, usize::MAX] {
        let past = push_from(&SIDE, &whole, start, 9, &[], |points, lent| collide(points, &[1.0, 1.0], 1.0, 1, lent));
        assert_eq!(past, Err(Refusal::Lengths));
    }
}
