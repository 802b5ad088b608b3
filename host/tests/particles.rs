//! Center and the closing move through the archive: T12, refusals, and every lent particle.
mod fence;

use fence::Fenced;
use talemiku::{apply_velocities, center, Particle, Refusal};

const FENCE: Particle = Particle { x: 1e300, y: -1e300, vx: 3.5, vy: -3.5, flags: 77 };

/// Calls on a part of a longer list; a refusal leaves it as it was, but for payloads of NaNs, which nothing says.
fn act(particles: &[Particle], call: impl FnOnce(&mut [Particle]) -> Result<(), Refusal>) -> Result<Vec<Particle>, Refusal> {
    let mut lent = Fenced::new(particles, FENCE);
    let answer = call(lent.part());
    let now: Vec<[u64; 5]> = lent.now().expect("beside the particles").iter().map(words).collect();
    if let Err(refusal) = answer {
        assert_eq!(now, particles.iter().map(words).collect::<Vec<_>>(), "after {refusal}");
        return Err(refusal);
    }
    Ok(lent.part().to_vec())
}

fn words(p: &Particle) -> [u64; 5] {
    let bits = |x: f64| if x.is_nan() { 0x7ff8_0000_0000_0000 } else { x.to_bits() };
    [bits(p.x), bits(p.y), bits(p.vx), bits(p.vy), p.flags]
}

#[test]
fn t12() {
    let moved = act(&[Particle::at(0.0, 0.0), Particle::at(2.0, 4.0)], |list| center(list, 0.0, 0.0, 1.0));
    assert_eq!(moved, Ok(vec![Particle::at(-1.0, -2.0), Particle::at(1.0, 2.0)]));
    assert_eq!(act(&[], |list| center(list, 0.0, 0.0, 1.0)), Ok(vec![]));
}

#[test]
fn center_refused() {
    let pair = [Particle::at(0.0, 0.0), Particle { vx: f64::NAN, ..Particle::at(2.0, 4.0) }];
    assert_eq!(act(&pair, |list| center(list, 0.0, 0.0, 1.0)), Err(Refusal::Number { place: 1 }));
    assert_eq!(act(&pair[..1], |list| center(list, 0.0, f64::NAN, 1.0)), Err(Refusal::Number { place: 0 }));
    let flagged = [Particle { flags: 4, ..Particle::at(f64::NAN, 0.0) }];
    assert_eq!(act(&flagged, |list| center(list, 0.0, 0.0, 1.0)), Err(Refusal::Record { record: 0 }));
    let far = [Particle::at(-1e12, 0.0), Particle::at(1e12, 0.0)];
    assert_eq!(act(&far, |list| center(list, 1e12, 0.0, 1.0)), Err(Refusal::Result));
    assert_eq!(act(&vec![Particle::at(0.0, 0.0); 4097], |list| center(list, 0.0, 0.0, 1.0)), Err(Refusal::TooMany));
}

fn fast(flags: u64) -> Particle {
    Particle { x: 1.0, y: 2.0, vx: 1e10, vy: -1e10, flags }
}

#[test]
fn a_move_is_clamped_and_its_velocity_not() {
    let free = Particle { x: 2147483648.0, y: -2147483646.0, vx: 5e9, vy: -5e9, flags: 0 };
    assert_eq!(act(&[fast(0)], |list| apply_velocities(list, 0.5)), Ok(vec![free]));
    // any flag holds x, and none holds y
    for flags in 1..4 {
        let held = Particle { x: 1.0, vx: 0.0, flags, ..free };
        assert_eq!(act(&[fast(flags)], |list| apply_velocities(list, 0.5)), Ok(vec![held]));
    }
    assert_eq!(act(&[], |list| apply_velocities(list, 0.5)), Ok(vec![]));
}

#[test]
fn a_move_refused() {
    assert_eq!(act(&[fast(0), fast(4)], |list| apply_velocities(list, 0.5)), Err(Refusal::Record { record: 1 }));
    assert_eq!(act(&[fast(0)], |list| apply_velocities(list, f64::INFINITY)), Err(Refusal::Number { place: 0 }));
    assert_eq!(act(&[Particle { vx: 1e308, ..fast(0) }], |list| apply_velocities(list, 100.0)), Err(Refusal::Result));
    assert_eq!(act(&vec![fast(0); 4097], |list| apply_velocities(list, 0.5)), Err(Refusal::TooMany));
}
