// Talemiku called in fifteen lines, the README's: three labels that overlap are parted.
use talemiku::{particles_of, sheet_of, step, Force, Forces, Lent, Particle, Refusal, Settings, SLOT_WORDS};

fn main() -> Result<(), Refusal> {
    let mut sheet = sheet_of(&[Particle::at(0.0, 0.0), Particle::at(8.0, 6.0), Particle::at(9.0, 0.0)]);
    let mut slots = [None; 8];
    slots[0] = Some(Force::Collide { radii: &[12.0; 3], strength: 0.9, iterations: 3 });
    let settings = Settings { target: 0.0, alpha_decay: 0.0228, velocity_decay: 0.3 };
    let (mut alpha, draws, mut work) = (1.0, [0.5, -0.5, 0.25, -0.25], [0; (1 + 64 * 3) * SLOT_WORDS]);
    let lent = Lent { draws: &draws, work: &mut work };
    let done = step(&mut sheet, &mut alpha, &Forces::new(3, &slots), settings, 0.001, 300, lent)?;
    for label in particles_of(&sheet) {
        println!("{:.2} {:.2}", label.x, label.y);
    }
    done.stop.map_or(Ok(()), Err) // why a later tick was refused, if one was
}
