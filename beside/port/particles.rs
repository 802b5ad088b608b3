//! Center and the closing move. Their particles hold floats, so what a refusal leaves is compared by value: a NaN's payload is not.

use crate::case::{hex, Record};
use crate::fence::Fenced;
use crate::lent::{refused, require, Line};
use talemiku::raw::{self, Refusal};
use talemiku::Particle;

const FENCE: Particle = Particle { x: 1e300, y: -1e300, vx: 3.5, vy: -3.5, flags: 77 };

fn text(p: &Particle) -> String {
    format!("{} {} {} {}", hex(p.x), hex(p.y), hex(p.vx), hex(p.vy))
}

fn answer(records: &[Record], call: impl FnOnce(&mut [Particle]) -> Refusal) -> Line {
    let before: Vec<Particle> = records.iter().map(|r| Particle { x: r.x, y: r.y, vx: r.vx, vy: r.vy, flags: r.flags }).collect();
    let mut lent = Fenced::new(&before, FENCE);
    let refusal = call(lent.part());
    let now = lent.now().ok_or("written beside the particles")?;
    let flags = before.iter().zip(now).all(|(b, n)| b.flags == n.flags);
    require(flags, "flags are changed", refusal.number)?;
    if refusal.number != 0 {
        let kept = before.iter().zip(now).all(|(b, n)| text(b) == text(n));
        require(kept, "particles are changed", refusal.number)?;
        return Ok(refused(refusal));
    }
    require(refusal.place == 0, "a place though nothing is refused", 0)?;
    Ok(now.iter().fold(String::from("ok |"), |line, p| line + " " + &text(p)))
}

pub fn center(records: &[Record], x: f64, y: f64, strength: f64) -> Line {
    answer(records, |list| raw::center(list, x, y, strength))
}

pub fn apply_velocities(records: &[Record], decay: f64) -> Line {
    answer(records, |list| raw::apply_velocities(list, decay))
}
