//! Floor and root through the archive.
use talemiku::{floor, raw, root, Refusal};

const LIMIT: f64 = 1_099_511_627_776.0; // 2^40
const NAN: u64 = 0x7ff8_0000_0000_0000;

fn beyond(x: f64) -> f64 {
    f64::from_bits(x.to_bits() + 1)
}

#[test]
fn floors() {
    for (x, z) in [(-0.0, 0), (0.0, 0), (-0.5, -1), (0.5, 0), (2.0, 2), (-2.0, -2), (f64::MIN_POSITIVE, 0), (-f64::MIN_POSITIVE, -1)] {
        assert_eq!(floor(x), Ok(z), "floor of {x}");
    }
    let whole = 1 << 40;
    assert_eq!(floor(LIMIT), Ok(whole));
    assert_eq!(floor(-LIMIT), Ok(-whole));
    assert_eq!(floor(LIMIT - 0.5), Ok(whole - 1));
}

#[test]
fn floors_refused() {
    for x in [f64::NAN, f64::INFINITY, -f64::INFINITY, beyond(LIMIT), beyond(-LIMIT), f64::from_bits(0xfff4_0000_0000_0001)] {
        assert_eq!(floor(x), Err(Refusal::Coordinate { particle: 0 }), "floor of {x}");
        assert_eq!(raw::floor(x).value, 0);
    }
}

// T13
#[test]
fn roots() {
    assert_eq!(root(0.25), 0.5);
    assert_eq!(root(f64::from_bits(1)), 0.5f64.powi(537));
    assert_eq!(root(f64::INFINITY), f64::INFINITY);
    assert_eq!(root(-0.0).to_bits(), (-0.0f64).to_bits());
    assert_eq!(root(2.0).to_bits(), 0x3ff6_a09e_667f_3bcd);
}

#[test]
fn roots_that_are_no_number() {
    for bits in [0xbff0_0000_0000_0000, 0x8000_0000_0000_0001, 0xfff0_0000_0000_0000, 0x7ff0_0000_0000_0001, 0xffff_ffff_ffff_ffff] {
        assert_eq!(raw::root(bits), NAN, "root of {bits:016x}");
    }
}
