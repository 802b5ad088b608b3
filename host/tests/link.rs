//! Link through the archive: T11, refusals, and every lent byte.
mod fence;
mod force;

use force::{buffer, push, push_from, Pushed};
use talemiku::{link, Links, Refusal};

const TIED: [f64; 4] = [0.0, 0.0, 3.0, 4.0];

fn links<'a>(ends: &'a [u32], strengths: &'a [f64], distances: &'a [f64]) -> Links<'a> {
    Links { ends, strengths, distances, iterations: 1 }
}

fn tie(l: Links<'_>, draws: &[f64]) -> Pushed {
    push(&TIED, &[0.0; 4], 2, draws, |points, lent| link(points, l, 1.0, lent))
}

#[test]
fn t11() {
    assert_eq!(tie(links(&[0, 1], &[], &[0.0]), &[]), Ok((0, 0, vec![1.5, 2.0, -1.5, -2.0])));
}

#[test]
fn later_links_see_earlier_changes() {
    // 5 apart: the first link draws both ends together, the second finds no distance and draws both axes
    let twice = links(&[0, 1, 0, 1], &[1.0, 1.0], &[0.0, 0.0]);
    assert_eq!(tie(twice, &[]), Err(Refusal::Draws));
    assert_eq!(tie(twice, &[0.5]), Err(Refusal::Draws));
    assert_eq!(tie(twice, &[0.5, 0.0, 1.0]), Ok((0, 2, vec![1.75, 2.0, -1.75, -2.0])));
}

#[test]
fn self_links_and_none() {
    assert_eq!(tie(links(&[1, 1], &[], &[7.0]), &[]), Ok((0, 0, vec![0.0; 4])));
    assert_eq!(tie(links(&[], &[], &[]), &[]), Ok((0, 0, vec![0.0; 4])));
    let none = push(&[], &[], 0, &[], |points, lent| link(points, links(&[], &[], &[]), 1.0, lent));
    assert_eq!(none, Ok((0, 0, vec![])));
}

#[test]
fn counts_too_great() {
    let many = vec![9; 2 * 8193];
    assert_eq!(tie(links(&many, &[], &[]), &[]), Err(Refusal::TooMany));
    assert_eq!(tie(Links { iterations: 65, ..links(&[9, 9], &[], &[]) }, &[]), Err(Refusal::TooMany));
    let crowd = vec![f64::NAN; 2 * 4097];
    let crowded = push_from(&crowd, &[], 0, 0, &[], |points, lent| link(points, links(&[], &[], &[]), 1.0, lent));
    assert_eq!(crowded, Err(Refusal::TooMany));
}

#[test]
fn lengths_that_disagree() {
    for l in [links(&[0, 9, 1], &[], &[0.0]), links(&[0, 9], &[], &[]), links(&[0, 9], &[1.0, 1.0], &[0.0]), links(&[], &[1.0], &[])] {
        assert_eq!(tie(l, &[]), Err(Refusal::Lengths));
    }
    let l = links(&[0, 9], &[], &[0.0]);
    let whole = buffer(&[0.0; 4]);
    let part = |buffer: &[u8], start| push_from(&TIED, buffer, start, 2, &[], |points, lent| link(points, l, 1.0, lent));
    // one byte short, and starts whose end would not fit a machine word
    for start in [whole.len() - 31, whole.len(), whole.len() + 1, usize::MAX, usize::MAX - 31] {
        assert_eq!(part(&whole, start), Err(Refusal::Lengths));
    }
    assert_eq!(part(&whole, whole.len() - 32), Err(Refusal::LinkEnd { link: 0 }));
    assert_eq!(push(&TIED[..3], &[0.0; 4], 2, &[], |points, lent| link(points, l, 1.0, lent)), Err(Refusal::Lengths));
}

#[test]
fn ends_and_numbers() {
    assert_eq!(tie(links(&[0, 1, 2, 0], &[], &[0.0, -1.0]), &[]), Err(Refusal::LinkEnd { link: 1 }));
    assert_eq!(tie(links(&[1, 0, 0, u32::MAX], &[], &[0.0, -1.0]), &[]), Err(Refusal::LinkEnd { link: 1 }));
    assert_eq!(tie(links(&[0, 1], &[f64::NAN], &[-1.0]), &[2.0]), Err(Refusal::Number { place: 0 }));
    assert_eq!(tie(links(&[0, 1, 1, 0], &[], &[0.0, -1.0]), &[2.0]), Err(Refusal::Number { place: 1 }));
    assert_eq!(tie(links(&[0, 1], &[], &[0.0]), &[0.0, 0.0, 2.0]), Err(Refusal::Number { place: 2 }));
    let l = links(&[0, 1], &[], &[0.0]);
    let called = |places: &[f64], velocities: &[f64], alpha| push(places, velocities, 2, &[], |points, lent| link(points, l, alpha, lent));
    assert_eq!(called(&[0.0, 0.0, f64::NAN, 4.0], &[f64::NAN; 4], 1.0), Err(Refusal::Coordinate { particle: 1 }));
    assert_eq!(called(&TIED, &[0.0, 0.0, 0.0, f64::from_bits(0xfff0_0000_0000_0bad)], 1.0), Err(Refusal::Number { place: 1 }));
    assert_eq!(called(&TIED, &[0.0; 4], f64::NAN), Err(Refusal::Number { place: 0 }));
}

#[test]
fn a_result_out_of_range() {
    let l = Links { iterations: 64, ..links(&[0, 1], &[-1e12], &[0.0]) };
    assert_eq!(tie(l, &[]), Err(Refusal::Result));
}
