//! The program recenter (document 02, R-1): a second reading of what it writes, and sheets to hold it to.

use crate::random::Random;
use crate::records::{fault, record, spoil, words, Words, FARTHEST, RECORD};
use std::fs;
use std::io::{self, Read, Write};
use std::path::Path;

/// So many records are taken, and so many ticks.
const MOST_RECORDS: usize = 512;
const MOST_TICKS: u64 = 4096;
/// Alpha, and what it goes by. Center takes no account of it.
const ALPHA: f64 = 1.0;
const TARGET: f64 = 0.0;
const ALPHA_DECAY: f64 = 0.0228;
const VELOCITY_DECAY: f64 = 0.6;
/// Center's middle and strength.
const MIDDLE: f64 = 0.0;
const STRENGTH: f64 = 1.0;
/// No label moves further in a tick.
const SLOWEST: f64 = -2_147_483_648.0;
const FASTEST: f64 = 2_147_483_647.0;

const USAGE: &str = "usage: recenter TICKS";

// ---- the reading

/// Where labels are along one axis, and how fast they move.
struct Axis {
    places: Vec<f64>,
    velocities: Vec<f64>,
}

impl Axis {
    fn of(labels: &[Words], place: usize) -> Axis {
        let numbers = |k: usize| labels.iter().map(|label| f64::from_bits(label[k])).collect();
        Axis { places: numbers(place), velocities: numbers(place + 2) }
    }

    /// The mean, summed from 0 in index order, is taken off each place.
    fn center(&mut self) {
        let mut sum = 0.0;
        for place in &self.places {
            sum += place;
        }
        let off = (sum / self.places.len() as f64 - MIDDLE) * STRENGTH;
        for place in &mut self.places {
            *place -= off;
        }
    }

    /// Each place goes by its velocity.
    fn close(&mut self) {
        for (place, velocity) in self.places.iter_mut().zip(&mut self.velocities) {
            *place += velocity.clamp(SLOWEST, FASTEST);
            *velocity *= VELOCITY_DECAY;
        }
    }

    /// 9 for a place or a velocity that is out of range.
    fn is_in_range(&self) -> Result<(), u64> {
        let places = self.places.iter().all(|place| (-FARTHEST..=FARTHEST).contains(place));
        if places && self.velocities.iter().all(|velocity| velocity.is_finite()) {
            Ok(())
        } else {
            Err(9)
        }
    }
}

/// One tick, or the number by which it is refused. Any flag holds x, and none holds y.
fn tick(x: &mut Axis, y: &mut Axis, alpha: &mut f64, held: &[bool]) -> Result<(), u64> {
    let entry = x.places.clone();
    *alpha += (TARGET - *alpha) * ALPHA_DECAY;
    if !(-FARTHEST..=FARTHEST).contains(alpha) {
        return Err(9);
    }
    x.center();
    y.center();
    x.is_in_range()?;
    y.is_in_range()?;
    x.close();
    y.close();
    for (k, _) in held.iter().enumerate().filter(|(_, &held)| held) {
        x.places[k] = entry[k];
        x.velocities[k] = 0.0;
    }
    x.is_in_range()?;
    y.is_in_range()
}

/// The sheet after so many ticks, or the number by which it or one of these is refused.
fn recentered(sheet: &[u8], ticks: u64) -> Result<Vec<u8>, u64> {
    if sheet.len() % RECORD != 0 {
        return Err(10);
    }
    if sheet.len() / RECORD > MOST_RECORDS || ticks > MOST_TICKS {
        return Err(1);
    }
    let labels: Vec<Words> = sheet.chunks(RECORD).map(words).collect();
    if let Some(number) = labels.iter().find_map(fault) {
        return Err(number);
    }
    let held: Vec<bool> = labels.iter().map(|label| label[4] != 0).collect();
    let (mut x, mut y, mut alpha) = (Axis::of(&labels, 0), Axis::of(&labels, 1), ALPHA);
    for _ in 0..ticks {
        tick(&mut x, &mut y, &mut alpha, &held)?;
    }
    let label = |k: usize| {
        let numbers = [x.places[k], y.places[k], x.velocities[k], y.velocities[k]].map(f64::to_bits);
        [numbers[0], numbers[1], numbers[2], numbers[3], labels[k][4]]
    };
    Ok((0..labels.len()).flat_map(|k| record(&label(k))).collect())
}

/// The whole number that digits are, if they are nothing else; those that are too great for a word are all alike.
fn whole(text: &str) -> Option<u64> {
    let digit = |number: u64, byte: u8| number.saturating_mul(10).saturating_add(u64::from(byte - b'0'));
    let is_whole = !text.is_empty() && text.bytes().all(|byte| byte.is_ascii_digit());
    is_whole.then(|| text.bytes().fold(0, digit))
}

/// What the program writes to its two outputs for an argument and a sheet.
fn written(text: &str, sheet: &[u8]) -> (Vec<u8>, String) {
    match whole(text).map(|ticks| recentered(sheet, ticks)) {
        Some(Ok(sheet)) => (sheet, String::new()),
        Some(Err(number)) => (Vec::new(), format!("refused {number}\n")),
        None => (Vec::new(), format!("{USAGE}\n")),
    }
}

/// As the program: the sheet from the standard input.
fn answer(text: &str) -> io::Result<()> {
    let mut sheet = Vec::new();
    io::stdin().read_to_end(&mut sheet)?;
    let (out, error) = written(text, &sheet);
    io::stdout().write_all(&out)?;
    io::stderr().write_all(error.as_bytes())
}

// ---- cases in a folder: of each NAME.ticks and NAME.sheet, which the program is given, and NAME.out and NAME.err, which it has to write

struct Case {
    name: String,
    ticks: String,
    sheet: Vec<u8>,
}

fn put(folder: &Path, case: &Case) -> io::Result<()> {
    let (out, error) = written(&case.ticks, &case.sheet);
    let file = |ending: &str| folder.join(format!("{}.{ending}", case.name));
    fs::write(file("ticks"), &case.ticks)?;
    fs::write(file("sheet"), &case.sheet)?;
    fs::write(file("out"), out)?;
    fs::write(file("err"), error)
}

fn put_all(folder: &str, mut cases: impl Iterator<Item = Case>) -> io::Result<()> {
    cases.try_for_each(|case| put(Path::new(folder), &case))
}

// ---- cases with names

fn label(x: f64, y: f64, vx: f64, vy: f64, flags: u64) -> Words {
    [x.to_bits(), y.to_bits(), vx.to_bits(), vy.to_bits(), flags]
}

fn sheet_of(labels: &[Words]) -> Vec<u8> {
    labels.iter().flat_map(record).collect()
}

/// So many labels, some of them held, with numbers that don't divide.
fn many(count: usize) -> Vec<Words> {
    let part = |k: usize, by: usize| (k * by % 1009) as f64 / 7.0 - 50.0;
    (0..count).map(|k| label(part(k, 31), part(k, 57), part(k, 13) / 9.0, part(k, 71) / 11.0, (k % 5).saturating_sub(1) as u64)).collect()
}

fn named() -> Vec<Case> {
    let far = FARTHEST;
    let beyond = f64::from_bits(far.to_bits() + 1);
    let still = |x: f64, y: f64| label(x, y, 0.0, 0.0, 0);
    let full = many(MOST_RECORDS);
    let last = |bad: Words| [&full[..MOST_RECORDS - 1], &[bad]].concat();
    let over = many(MOST_RECORDS + 1);
    let bad = [label(f64::NAN, 0.0, 0.0, 0.0, 4), label(0.0, beyond, f64::NAN, 0.0, 0), label(0.0, 0.0, 0.0, f64::INFINITY, 3)];
    // each goes as far as a tick takes it, away from the other, until they are too far apart
    let apart = [label(0.0, 0.0, f64::MAX, f64::MIN, 0), label(0.0, 0.0, f64::MIN, f64::MAX, 0)];
    let edge = |gap: f64, v: f64| [label(far - gap, 0.0, v, 0.0, 0), label(gap - far, 0.0, -v, 0.0, 0)];
    let of = |name: &str, ticks: &str, labels: &[Words]| Case { name: name.to_string(), ticks: ticks.to_string(), sheet: sheet_of(labels) };
    let mut all = vec![
        of("none", "7", &[]),
        of("none-most", "4096", &[]),
        of("none-more", "4097", &[]),
        of("one", "3", &[label(8.5, -0.1, 0.3, 1e9, 0)]),
        of("one-held", "3", &[label(8.5, -0.1, 0.3, 1e9, 2)]),
        of("zeros", "1", &[label(-0.0, 0.0, -0.0, 0.0, 0), label(0.0, -0.0, 0.0, -0.0, 1)]),
        of("zeros-still", "0", &[label(-0.0, 0.0, -0.0, 0.0, 0), label(0.0, -0.0, 0.0, -0.0, 1)]),
        of("least", "4", &[label(1e-320, -1e-320, 1e-320, -1e-320, 0), label(0.0, 5e-324, 5e-324, -5e-324, 0)]),
        of("seven", "10", &many(7)),
        of("seven-long", "4096", &many(7)),
        of("full", "5", &full),
        of("full-still", "0", &full),
        of("full-most", "4096", &full),
        of("full-more", "4097", &full),
        of("over", "1", &over),
        of("over-still", "0", &over),
        of("over-bad", "1", &[&bad[..], &over].concat()),
        of("flag", "1", &last(bad[0])),
        of("flag-still", "0", &bad[..1]),
        of("coordinate", "1", &last(bad[1])),
        of("coordinate-more", "4097", &last(bad[1])),
        of("velocity", "1", &last(bad[2])),
        of("first", "1", &[still(1.0, 2.0), bad[2], bad[1], bad[0]]),
        // 9: Center takes the last one beyond 2^40, though it is held; a move does so, along x and along y; but not a held one's, nor one that ends just there
        of("center", "1", &[still(far, 0.0), still(far, 0.0), still(-far, 0.0)]),
        of("center-held", "1", &[still(far, 0.0), still(far, 0.0), label(-far, 0.0, 0.0, 0.0, 3)]),
        of("move", "1", &edge(0.0, 1.0)),
        of("move-y", "1", &[label(0.0, far, 0.0, 1.0, 1), label(0.0, -far, 0.0, -1.0, 1)]),
        of("move-held", "3", &edge(0.0, 1.0).map(|[x, y, vx, vy, _]| [x, y, vx, vy, 1])),
        of("move-just", "1", &edge(1.0, 1.0)),
        of("move-still", "0", &edge(0.0, 1.0)),
        of("later", "2", &edge(1.5, 1.0)),
        of("later-before", "1", &edge(1.5, 1.0)),
        of("fast", "2", &apart),
        of("fast-before", "500", &apart),
        of("fast-later", "600", &apart),
        // ticks by other digits
        of("zeros-before", &format!("{:0>200}", 12), &many(3)),
        of("seven-by-three", "007", &many(3)),
        of("word-and-one", "18446744073709551617", &many(3)),
        of("half-and-one", "4294967297", &many(3)),
        of("thirty", "123456789012345678901234567890", &many(3)),
    ];
    for bytes in [1, 39, 41, 20_479, 20_481, 20_519, 20_521, 100_001] {
        for ticks in ["1", "4097", "123456789012345678901234567890"] {
            all.push(Case { name: format!("length-{bytes}-{ticks}"), ticks: ticks.to_string(), sheet: vec![0xff; bytes] });
        }
    }
    all
}

// ---- random cases, the same for a seed on every machine

impl Random {
    /// A number of a size that is chosen for all labels, or any that is taken.
    fn sized(&mut self, size: f64, any: fn(&mut Random) -> u64) -> u64 {
        if self.once_in(20) {
            return any(self);
        }
        let part = (self.next() >> 11) as f64 / (1u64 << 52) as f64 - 1.0;
        (part * size).to_bits()
    }
}

fn labels(r: &mut Random, n: usize) -> Vec<Words> {
    let far = r.pick(&[1.0, 100.0, 1e6, 1e9, 5e11, 7e11, FARTHEST]);
    let fast = r.pick(&[0.0, 1.0, 100.0, 1e9, 1e11]);
    let held = r.pick(&[1, 2, 5, 1000]);
    let sizes = [far, far, fast, fast];
    let one = |r: &mut Random| {
        let number = |r: &mut Random, k: usize| r.sized(sizes[k], if k < 2 { Random::coordinate } else { Random::velocity });
        [number(r, 0), number(r, 1), number(r, 2), number(r, 3), if r.once_in(held) { 1 + r.below(3) as u64 } else { 0 }]
    };
    (0..n).map(|_| one(r)).collect()
}

/// Mostly a few, at times as many as are taken and one more.
fn count(r: &mut Random) -> usize {
    match r.below(30) {
        0 => MOST_RECORDS,
        1 => MOST_RECORDS + 1,
        2..=5 => r.below(100),
        _ => r.below(9),
    }
}

fn ticks(r: &mut Random) -> String {
    let ticks = match r.below(16) {
        0 => MOST_TICKS,
        1 => MOST_TICKS + 1 + r.below(3) as u64,
        2 => r.below(MOST_TICKS as usize) as u64,
        3 => r.next(),
        4..=8 => r.below(4) as u64,
        _ => r.below(40) as u64,
    };
    let zeros = if r.once_in(10) { r.below(30) } else { 0 };
    format!("{}{ticks}", "0".repeat(zeros))
}

fn case(r: &mut Random, number: usize) -> Case {
    let n = count(r);
    let mut labels = labels(r, n);
    if n > 0 && r.once_in(12) {
        for _ in 0..r.pick(&[1, 1, 2]) {
            let at = r.below(n);
            spoil(r, &mut labels[at]);
        }
    }
    let mut sheet = sheet_of(&labels);
    if r.once_in(15) {
        let bytes = 1 + r.below(RECORD - 1);
        sheet.extend((0..bytes).map(|_| r.next() as u8));
    }
    Case { name: format!("random-{number}"), ticks: ticks(r), sheet }
}

/// `TICKS`, `make FOLDER` or `random SEED COUNT FOLDER`; none for other words, and false where something can't be read or written.
pub fn run(words: &[&str]) -> Option<bool> {
    let done = match *words {
        [ticks] => answer(ticks),
        ["make", folder] => put_all(folder, named().into_iter()),
        ["random", seed, count, folder] => {
            let (mut random, count) = (Random::new(seed.parse().ok()?), count.parse().ok()?);
            put_all(folder, (1..=count).map(|number| case(&mut random, number)))
        }
        _ => return None,
    };
    if let Err(why) = &done {
        eprintln!("second recenter: {why}");
    }
    Some(done.is_ok())
}
