//! Root and floor as document 01 has them, and how -0.0 is read.

/// The greatest whole number not above x; that of -0.0 is +0.0.
pub fn floor(x: f64) -> f64 {
    x.floor() + 0.0
}

/// A strength or radius of -0.0 is read as 0.0.
pub fn plain_zero(x: f64) -> f64 {
    if x == 0.0 {
        0.0
    } else {
        x
    }
}

/// The nearest value to the square root, worked out over whole numbers.
pub fn root(x: f64) -> f64 {
    if x == 0.0 || x == f64::INFINITY {
        return x;
    }
    if x.is_nan() || x < 0.0 {
        return f64::NAN;
    }
    let (mut digits, mut exponent) = whole(x);
    // 54 digits of root from 107 or 108 digits, under an even exponent
    while digits < 1 << 106 || exponent % 2 != 0 {
        digits *= 2;
        exponent -= 1;
    }
    let longer = whole_root(digits);
    // the last of the 54 digits rounds: a root that needs it is never exact, so there is no tie
    let nearest = (longer >> 1) + (longer & 1);
    nearest as f64 * power_of_two(exponent / 2 + 1)
}

/// A positive x as digits times a power of two.
fn whole(x: f64) -> (u128, i64) {
    let biased = (x.to_bits() >> 52) as i64;
    let fraction = (x.to_bits() & ((1 << 52) - 1)) as u128;
    if biased == 0 {
        (fraction, -1074)
    } else {
        (fraction + (1 << 52), biased - 1075)
    }
}

/// The greatest whole number whose square is at most n, for n below 2^108.
fn whole_root(n: u128) -> u128 {
    (0..54).rev().fold(0, |root, digit| {
        let longer = root + (1 << digit);
        if longer * longer <= n {
            longer
        } else {
            root
        }
    })
}

fn power_of_two(exponent: i64) -> f64 {
    f64::from_bits(((exponent + 1023) as u64) << 52)
}
