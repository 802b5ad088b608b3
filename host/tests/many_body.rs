//! ManyBody through the archive: T9, refusals, and every lent byte.
mod fence;
mod force;

use force::{buffer, push, push_from, Pushed};
use talemiku::{many_body, Refusal};

const APART: [f64; 4] = [0.0, 0.0, 3.0, 3.0];

fn act(places: &[f64], strengths: &[f64], slots: usize, draws: &[f64]) -> Pushed {
    push(places, &vec![0.0; places.len()], slots, draws, |points, lent| many_body(points, strengths, 1.0, lent))
}

#[test]
fn t9() {
    assert_eq!(act(&APART, &[-30.0, -30.0], 3, &[]), Ok((6, 0, vec![-5.0, -5.0, 5.0, 5.0])));
}

#[test]
fn minus_zero_is_read_as_zero() {
    let pushed =
        push(&[0.75, 0.75, 1.25, 1.25], &[-0.0, -0.0, 0.0, 0.0], 9, &[], |points, lent| many_body(points, &[0.0, -0.0], 1.0, lent));
    let (visits, draws, velocities) = pushed.expect("accepted");
    assert_eq!((visits, draws), (6, 0));
    assert!(velocities.iter().all(|v| v.to_bits() == 0));
}

#[test]
fn none_and_one() {
    assert_eq!(act(&[], &[], 0, &[]), Ok((0, 0, vec![])));
    assert_eq!(act(&[5.0, -5.0], &[-30.0], 1, &[]), Ok((1, 0, vec![0.0, 0.0])));
}

#[test]
fn coincident_particles_draw() {
    let twice = [0.0; 4];
    assert_eq!(act(&twice, &[1.0, 1.0], 1, &[0.5]), Err(Refusal::Draws));
    let (visits, draws, velocities) = act(&twice, &[0.0, 0.0], 1, &[0.5; 5]).expect("accepted");
    assert_eq!((visits, draws, velocities), (2, 4, vec![0.0; 4]));
    assert_eq!(act(&twice, &[1e12, 1e12], 1, &[1e-300; 4]), Err(Refusal::Result));
}

#[test]
fn trees_that_do_not_fit() {
    assert_eq!(act(&APART, &[1.0, 1.0], 2, &[]), Err(Refusal::Slots { particle: 1 }));
    assert_eq!(act(&[0.0, 0.0, 0.5f64.powi(65), 0.0], &[1.0, 1.0], 99, &[]), Err(Refusal::Level { particle: 1 }));
}

#[test]
fn refused_before_work() {
    assert_eq!(act(&vec![0.0; 2 * 4097], &[], 9, &[]), Err(Refusal::TooMany));
    assert_eq!(act(&APART, &[1.0], 9, &[]), Err(Refusal::Lengths));
    assert_eq!(act(&APART[..3], &[1.0], 9, &[]), Err(Refusal::Lengths));
    assert_eq!(act(&[0.0, 0.0, 0.0, f64::INFINITY], &[f64::NAN; 2], 9, &[]), Err(Refusal::Coordinate { particle: 1 }));
    assert_eq!(act(&APART, &[1.0, f64::NAN], 9, &[2.0]), Err(Refusal::Number { place: 1 }));
    assert_eq!(act(&APART, &[1.0, 1.0], 9, &[0.0, -2.0]), Err(Refusal::Number { place: 1 }));
    let cold = push(&APART, &[0.0; 4], 9, &[], |points, lent| many_body(points, &[1.0, 1.0], f64::NAN, lent));
    assert_eq!(cold, Err(Refusal::Number { place: 0 }));
    let whole = buffer(&[0.0; 4]);
    for start in [whole.len() - 31, usize::MAX] {
        let past = push_from(&APART, &whole, start, 9, &[], |points, lent| many_body(points, &[1.0, 1.0], 1.0, lent));
        assert_eq!(past, Err(Refusal::Lengths));
    }
}
