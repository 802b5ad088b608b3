//! Outlines through the archive: document 02, R-10, worked by hand, and every lent number.
mod fence;

use fence::Fenced;
use talemiku::{unwrap, Refusal, HALF_TURN};

const DEGREE: i64 = 10_000_000;
const SPARE: i64 = 9;

/// Calls with room for so many numbers, which hold `SPARE` before; what is behind the corners' stays, a refusal writes nothing.
fn unwrapped(corners: &[i64], centre: i64, room: usize) -> Result<Vec<i64>, Refusal> {
    let mut lent = Fenced::new(&vec![SPARE; room], -SPARE);
    let answer = unwrap(corners, centre, lent.part());
    let now = lent.now().expect("beside the output");
    let written = if answer.is_ok() { corners.len() } else { 0 };
    assert!(now[written..].iter().all(|&number| number == SPARE), "{now:?} after {answer:?}");
    answer.map(|()| now[..written].to_vec())
}

fn degrees(list: &[i64]) -> Vec<i64> {
    list.iter().map(|degrees| degrees * DEGREE).collect()
}

fn round(centre: i64, corners: &[i64]) -> Result<Vec<i64>, Refusal> {
    unwrapped(&degrees(corners), centre * DEGREE, corners.len() + 2)
}

#[test]
fn none() {
    assert_eq!(round(0, &[]), Ok(vec![]));
    assert_eq!(unwrapped(&[], HALF_TURN, 0), Ok(vec![]));
}

#[test]
fn a_corner_on_either_seam() {
    for (centre, number) in [(0, -180), (180, 180), (-180, -180), (1, 180), (-1, -180)] {
        for corner in [-180, 180] {
            assert_eq!(round(centre, &[corner]), Ok(degrees(&[number])), "{corner} round {centre}");
        }
    }
}

#[test]
fn a_box_across_the_seam() {
    let corners = [170, -170, -170, 170];
    for (centre, numbers) in [(0, [170, 190, 190, 170]), (180, [170, 190, 190, 170]), (-180, [-190, -170, -170, -190])] {
        assert_eq!(round(centre, &corners), Ok(degrees(&numbers)), "round {centre}");
    }
}

#[test]
fn half_a_turn_goes_west() {
    assert_eq!(round(0, &[0, 180, -90]), Ok(degrees(&[0, -180, -90])));
    assert_eq!(round(0, &[180, 0, 90]), Ok(degrees(&[-180, -360, -270])));
    assert_eq!(unwrapped(&[0, HALF_TURN - 1, 90 * DEGREE], 0, 3), Ok(vec![0, HALF_TURN - 1, 90 * DEGREE]));
}

#[test]
fn an_outline_that_does_not_close() {
    for corners in [&[-120, 0, 120][..], &[120, 0, -120], &[0, 180], &[0, 90, 180, -90]] {
        assert_eq!(round(0, corners), Err(Refusal::Unclosed), "{corners:?}");
    }
}

#[test]
fn what_is_lent_in_its_order() {
    let far = HALF_TURN + 1;
    assert_eq!(unwrapped(&[far; 4097], far, 0), Err(Refusal::TooMany));
    assert_eq!(unwrapped(&[0, far], far, 1), Err(Refusal::Lengths));
    assert_eq!(unwrapped(&[0, HALF_TURN, far, i64::MIN], far, 4), Err(Refusal::Number { place: 2 }));
    assert_eq!(unwrapped(&[0, i64::MAX], far, 2), Err(Refusal::Number { place: 1 }));
    for centre in [far, -far, i64::MIN, i64::MAX] {
        assert_eq!(unwrapped(&[0, HALF_TURN], centre, 2), Err(Refusal::Number { place: 0 }));
        assert_eq!(unwrapped(&[], centre, 0), Err(Refusal::Number { place: 0 }));
    }
    assert_eq!(unwrapped(&[0, HALF_TURN], 0, 2), Err(Refusal::Unclosed));
}

#[test]
fn as_many_as_are_taken() {
    // so many turns east, as far as a list of 4,096 goes, and back
    let out = (0..2048).map(|k| 179 * k);
    let numbers: Vec<i64> = out.clone().chain(out.rev()).map(|degrees| degrees * DEGREE).collect();
    let turn = 2 * HALF_TURN;
    let corners: Vec<i64> = numbers.iter().map(|number| (number + HALF_TURN).rem_euclid(turn) - HALF_TURN).collect();
    assert_eq!(unwrapped(&corners, 0, 4096), Ok(numbers));
    assert_eq!(unwrapped(&corners, 0, 4095), Err(Refusal::Lengths));
}
