//! Sheets laid out by hand, apart from the crate's own: of any particles, whatever is wrong with them, which the archive's writer refuses.
use talemiku::Particle;

/// The records of these particles: x, y, vx, vy and flags, little-endian, 8 bytes each.
pub fn laid(particles: &[Particle]) -> Vec<u8> {
    let words = |p: &Particle| [p.x.to_bits(), p.y.to_bits(), p.vx.to_bits(), p.vy.to_bits(), p.flags];
    particles.iter().flat_map(words).flat_map(u64::to_le_bytes).collect()
}
