//! The tree call through the archive: T1 to T8, refusals, and every lent byte.
mod fence;
mod listed;

use listed::{lend, Listed};
use talemiku::{sheet_of, tree, Particle, Refusal, ROW_NUMBERS};

const LIMIT: f64 = 1_099_511_627_776.0; // 2^40

fn still(points: &[[f64; 2]]) -> Vec<u8> {
    sheet_of(&points.iter().map(|p| Particle::at(p[0], p[1])).collect::<Vec<_>>())
}

fn list_with(slots: usize, sheet: &[u8], rows: usize, chains: usize) -> Result<Listed, Refusal> {
    lend(slots, rows, chains, |rows, chains, work| tree(sheet, rows, chains, work))
}

fn list(slots: usize, points: &[[f64; 2]]) -> Result<Listed, Refusal> {
    list_with(slots, &still(points), slots * ROW_NUMBERS, points.len())
}

fn listed(extent: [f64; 4], rows: &[[u32; 4]], chains: &[u32]) -> Result<Listed, Refusal> {
    Ok(Listed { extent, rows: rows.to_vec(), chains: chains.to_vec() })
}

const UNIT: [f64; 4] = [0.0, 0.0, 1.0, 1.0];

#[test]
fn t1_none() {
    assert_eq!(list(9, &[]), listed([0.0; 4], &[], &[]));
    assert_eq!(list(0, &[]), listed([0.0; 4], &[], &[]));
}

#[test]
fn t2_a_point_twice() {
    assert_eq!(list(9, &[[0.0, 0.0], [0.0, 0.0]]), listed(UNIT, &[[0, 0, 2, 2]], &[0, 1]));
    assert_eq!(list(1, &[[0.0, 0.0], [-0.0, -0.0]]), listed(UNIT, &[[0, 0, 2, 2]], &[0, 1]));
}

#[test]
fn t3_below_zero() {
    assert_eq!(list(9, &[[-0.5, 0.0]]), listed([-1.0, 0.0, 0.0, 1.0], &[[0, 0, 2, 1]], &[0]));
}

#[test]
fn t4_two_points() {
    let rows = [[0, 0, 1, 0], [1, 0, 2, 1], [1, 3, 2, 1]];
    assert_eq!(list(9, &[[0.0, 0.0], [1.0, 1.0]]), listed([0.0, 0.0, 2.0, 2.0], &rows, &[0, 1]));
}

#[test]
fn t5_an_old_root_is_child_1() {
    let rows = [[0, 0, 1, 0], [1, 0, 2, 1], [1, 1, 1, 0], [2, 0, 2, 1], [2, 3, 2, 1]];
    assert_eq!(list(5, &[[0.0, 0.0], [1.0, 1.0], [-1.0, 0.0]]), listed([-2.0, 0.0, 2.0, 4.0], &rows, &[2, 0, 1]));
}

#[test]
fn t6_level_64() {
    let points = [[0.0, 0.0], [0.5f64.powi(64), 0.0]];
    let mut rows: Vec<[u32; 4]> = (0..64).map(|level| [level, 0, 1, 0]).collect();
    rows.extend([[64, 0, 2, 1], [64, 1, 2, 1]]);
    assert_eq!(list(66, &points), listed(UNIT, &rows, &[0, 1]));
    assert_eq!(list(65, &points), Err(Refusal::Slots { particle: 1 }));
}

#[test]
fn t7_past_level_64() {
    assert_eq!(list(99, &[[0.0, 0.0], [0.5f64.powi(65), 0.0]]), Err(Refusal::Level { particle: 1 }));
}

#[test]
fn t8_the_last_coordinate() {
    assert_eq!(list(9, &[[LIMIT, 0.0]]), listed([LIMIT, 0.0, LIMIT + 1.0, 1.0], &[[0, 0, 2, 1]], &[0]));
    assert_eq!(list(9, &[[f64::from_bits(LIMIT.to_bits() + 1), 0.0]]), Err(Refusal::Coordinate { particle: 0 }));
}

#[test]
fn lengths_that_disagree() {
    let sheet = still(&[[0.0, 0.0], [1.0, 1.0]]);
    for (rows, chains) in [(35, 2), (37, 2), (36, 1), (36, 3), (0, 2), (36, 0)] {
        assert_eq!(list_with(9, &sheet, rows, chains), Err(Refusal::Lengths));
    }
    // 10 for a bad length comes before, 1 too
    assert_eq!(list_with(9, &sheet[1..], 0, 0), Err(Refusal::Record { record: 0 }));
    assert_eq!(list_with(9, &vec![0; 40 * 4097], 0, 0), Err(Refusal::TooMany));
}

#[test]
fn the_first_bad_record() {
    let good = Particle::at(1.0, 2.0);
    let cases = [
        (Particle { flags: 4, x: f64::NAN, ..good }, Refusal::Record { record: 1 }),
        (Particle { flags: 3, y: f64::INFINITY, vx: f64::NAN, ..good }, Refusal::Coordinate { particle: 1 }),
        (Particle { vy: f64::from_bits(0x7ff0_0000_0000_0001), ..good }, Refusal::Number { place: 1 }),
    ];
    for (bad, refusal) in cases {
        let sheet = sheet_of(&[good, bad, Particle { flags: u64::MAX, ..bad }]);
        assert_eq!(list_with(9, &sheet, 36, 3), Err(refusal));
    }
}
