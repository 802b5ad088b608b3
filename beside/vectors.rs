// Makes the data of the program `replay_vectors` again: roots and floors, answered by this machine's own square root and floor.
//
//   rustc -O -o beside/build/vectors beside/vectors.rs && beside/build/vectors crates/replay_vectors/src
//
// It writes roots.rt and floors.rt into the folder that it is given.
mod random;

use random::Random;
use std::fmt::Write;

const NAN: u64 = 0x7ff8_0000_0000_0000;
const INFINITY: u64 = 0x7ff0_0000_0000_0000;
const SIGN: u64 = 0x8000_0000_0000_0000;

// A NaN is written in one way only. Apart, and over whole numbers: where a compiler sees both the root and a test of it for NaN, it may leave the test out, since each answer is a NaN.
#[inline(never)]
fn canonical(b: u64) -> u64 {
    if b & !SIGN > INFINITY {
        NAN
    } else {
        b
    }
}

fn root(b: u64) -> u64 {
    canonical(f64::from_bits(b).sqrt().to_bits())
}

// ---- patterns whose roots are asked for

// Squares that are exact: of small numbers, of numbers of 26 digits, and of powers of two.
fn squares(random: &mut Random) -> Vec<u64> {
    let mut all: Vec<f64> = (1..=24).map(|n| f64::from(n) * f64::from(n)).collect();
    for _ in 0..16 {
        let n = (random.next() >> 38) as f64;
        all.push(n * n);
    }
    for e in [-1022, -1000, -512, -64, -2, 2, 64, 512, 1000, 1022] {
        all.push(2f64.powi(e));
    }
    all.into_iter().map(f64::to_bits).collect()
}

// The value before and the value after each square.
fn neighbours(squares: &[u64]) -> Vec<u64> {
    squares.iter().flat_map(|b| [b - 1, b + 1]).collect()
}

// Below the least normal value: each power of two and the pattern before it, and the last ones.
fn subnormals() -> Vec<u64> {
    let mut all: Vec<u64> = (0..52).step_by(2).map(|k| 1 << k).collect();
    all.extend((3..52).step_by(4).map(|k| (1 << k) - 1));
    all.extend([3, 5, 6, 0x000f_ffff_ffff_fffe, 0x000f_ffff_ffff_ffff]);
    all
}

// The ends of the range, zeros, infinities, NaNs with payloads, and values below zero.
fn edges() -> Vec<u64> {
    let above = [
        0x0010_0000_0000_0000,
        0x0010_0000_0000_0001,
        0x001f_ffff_ffff_ffff,
        0x3fef_ffff_ffff_ffff,
        0x3ff0_0000_0000_0001,
        0x4000_0000_0000_0000,
        0x4008_0000_0000_0000,
        0x7fe0_0000_0000_0000,
        0x7fef_ffff_ffff_fffe,
        0x7fef_ffff_ffff_ffff,
    ];
    let payloads = [
        0x0000_0000_0000_0001,
        0x0000_0000_0000_002a,
        0x0007_ffff_ffff_ffff,
        0x0008_0000_0000_0000,
        0x0008_0000_0000_0001,
        0x000f_ffff_ffff_ffff,
    ];
    let mut all = vec![0, SIGN, INFINITY, SIGN | INFINITY];
    all.extend(above);
    all.extend(above.map(|b| SIGN | b));
    all.extend([SIGN | 1, SIGN | 2, SIGN | 0x000f_ffff_ffff_ffff]);
    all.extend(payloads.map(|p| INFINITY | p));
    all.extend(payloads.map(|p| SIGN | INFINITY | p));
    all
}

// Any 64 bits, and finite values above zero of any size.
fn randoms(random: &mut Random) -> Vec<u64> {
    let mut all: Vec<u64> = (0..40).map(|_| random.next()).collect();
    while all.len() < 240 {
        let b = random.next() & !SIGN;
        if b < INFINITY {
            all.push(b);
        }
    }
    all
}

// ---- numbers whose floors are asked for

fn accepted() -> Vec<u64> {
    let limit = 2f64.powi(40);
    let whole = [1.0, 2.0, 3.0, 7.0, 1000.0, 4503599.0, limit - 1.0, limit];
    let mut all = vec![0.0, 0.5, 1.5, 2.5, 1e-300, f64::from_bits(1), 1e9 + 0.5, limit - 0.5];
    for n in whole {
        all.push(n);
        all.push(f64::from_bits(n.to_bits() - 1));
        all.push(f64::from_bits(n.to_bits() + 1));
    }
    all.retain(|x| *x <= limit);
    all.into_iter().flat_map(|x| [x.to_bits(), (-x).to_bits()]).collect()
}

fn refused() -> Vec<u64> {
    let limit = 2f64.powi(40).to_bits();
    let sized = [limit + 1, limit + 2, 2f64.powi(41).to_bits(), 1e300f64.to_bits(), f64::MAX.to_bits()];
    let mut all: Vec<u64> = sized.iter().flat_map(|b| [*b, SIGN | *b]).collect();
    all.extend([INFINITY, SIGN | INFINITY, NAN, SIGN | NAN, INFINITY | 1, SIGN | INFINITY | 42]);
    all
}

// ---- the files

fn hex(b: &u64) -> String {
    format!("{b:#x}")
}

// An array as `rt fmt` lays it out: of short values as many on a line as there is room for, else one.
fn array(out: &mut String, comment: &str, name: &str, of: &str, values: &[String]) {
    let n = values.len();
    write!(out, "\n// {comment}\npub const {name}: [{of}; {n}] = [").unwrap();
    let room = if values.iter().all(|v| v.len() <= 10) { 100 } else { 0 };
    let mut column = usize::MAX;
    for v in values {
        let width = v.len() + 2;
        if column.saturating_add(width) > room {
            out.push_str("\n   ");
            column = 3;
        }
        write!(out, " {v},").unwrap();
        column += width;
    }
    out.push_str("\n];\n");
}

const MADE: &str = "Made by `rustc -O -o beside/build/vectors beside/vectors.rs && beside/build/vectors crates/replay_vectors/src`";

fn roots() -> String {
    let mut random = Random::new(1);
    let squares = squares(&mut random);
    let neighbours = neighbours(&squares);
    let mut all = squares;
    all.extend(neighbours);
    all.extend(subnormals());
    all.extend(edges());
    all.extend(randoms(&mut random));
    let answers: Vec<String> = all.iter().map(|b| hex(&root(*b))).collect();
    let all: Vec<String> = all.iter().map(hex).collect();
    let mut out = format!("// Patterns and their roots' patterns, answered by a machine's own square root, which IEEE 754 has it round correctly.\n// {MADE}.\n");
    array(&mut out, "squares, the values beside them, subnormal values, edges, random ones", "VALUES", "u64", &all);
    array(&mut out, "the root of each", "ROOTS", "u64", &answers);
    out
}

fn floors() -> String {
    let accepted = accepted();
    let refused = refused();
    let mut refusals = vec!["0".to_string(); accepted.len()];
    refusals.extend(vec!["4".to_string(); refused.len()]);
    let mut answers: Vec<String> = accepted.iter().map(|b| format!("{}", f64::from_bits(*b).floor() as i64)).collect();
    answers.extend(vec!["0".to_string(); refused.len()]);
    let all: Vec<String> = accepted.iter().chain(&refused).map(hex).collect();
    let mut out = format!("// Patterns of numbers and their floors, answered by a machine's own floor.\n// {MADE}.\n");
    array(&mut out, "within 2^40 of zero, then beyond it, infinite, or a NaN", "NUMBERS", "u64", &all);
    array(&mut out, "the refusal of each, 0 for none", "REFUSALS", "u64", &refusals);
    array(&mut out, "the floor of each, 0 where it is refused", "FLOORS", "i64", &answers);
    out
}

fn main() {
    let folder = std::env::args().nth(1).expect("the folder to write to");
    std::fs::write(format!("{folder}/roots.rt"), roots()).expect("roots.rt is written");
    std::fs::write(format!("{folder}/floors.rt"), floors()).expect("floors.rt is written");
}
