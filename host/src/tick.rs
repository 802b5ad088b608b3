//! A tick and a step of a sheet.
use crate::raw;
use crate::{Counts, Forces, Lent, Refusal};

/// What a tick is set to.
#[derive(Clone, Copy, Debug, PartialEq)]
pub struct Settings {
    /// `alpha_target`: where alpha goes.
    pub target: f64,
    /// `alpha_decay`: how much of the way it goes in a tick.
    pub alpha_decay: f64,
    /// `velocity_decay`: what velocities are multiplied by.
    pub velocity_decay: f64,
}

/// What a step did.
#[must_use = "`stop` says why a tick was refused"]
#[derive(Clone, Copy, Debug, PartialEq, Eq)]
pub struct Steps {
    /// Ticks done.
    pub ticks: u64,
    /// Whether alpha is at most `alpha_min`.
    pub finished: bool,
    /// What these ticks counted.
    pub counts: Counts,
    /// Why a further tick was refused, by 6 to 9: the sheet is as the ticks before it left it.
    pub stop: Option<Refusal>,
}

/// One tick: alpha goes towards its target, then the forces act by ascending slot, then the closing move.
///
/// # Errors
///
/// 10 and 1 to 5 for what is lent; 6 to 9 as the first stage that can't be done gives them. A refusal leaves sheet and alpha as they were.
///
/// ```
/// use talemiku::{particles_of, sheet_of, tick, Force, Forces, Lent, Particle, Settings};
/// let mut sheet = sheet_of(&[Particle::at(0.0, 0.0), Particle::at(2.0, 4.0)]);
/// let mut slots = [None; 8];
/// slots[0] = Some(Force::Center { x: 0.0, y: 0.0, strength: 1.0 });
/// let settings = Settings { target: 0.0, alpha_decay: 0.5, velocity_decay: 0.6 };
/// let mut alpha = 1.0;
/// tick(&mut sheet, &mut alpha, &Forces::new(2, &slots), settings, Lent { draws: &[], work: &mut [] })?;
/// assert_eq!(alpha, 0.5);
/// assert_eq!(particles_of(&sheet), [Particle::at(-1.0, -2.0), Particle::at(1.0, 2.0)]);
/// # Ok::<(), talemiku::Refusal>(())
/// ```
pub fn tick(sheet: &mut [u8], alpha: &mut f64, forces: &Forces, settings: Settings, lent: Lent<'_>) -> Result<Counts, Refusal> {
    let Settings { target, alpha_decay, velocity_decay } = settings;
    let Lent { draws, work } = lent;
    let mut bits = alpha.to_bits();
    let answer =
        raw::tick(sheet, &mut bits, &forces.words, &forces.numbers, &forces.links, draws, target, alpha_decay, velocity_decay, work);
    *alpha = f64::from_bits(bits);
    Counts::of(answer)
}

/// Ticks while alpha is over `alpha_min`, at most as many as the budget says. A tick that is refused ends the step, and [`Steps::stop`] says why.
///
/// # Errors
///
/// 10 and 1 to 5 for what is lent, before the first tick: sheet and alpha are as they were. Not 6 to 9: those are a tick's.
///
/// ```
/// use talemiku::{sheet_of, step, Forces, Lent, Particle, Settings};
/// let mut sheet = sheet_of(&[Particle { vx: 1.0, ..Particle::at(0.0, 0.0) }]);
/// let settings = Settings { target: 0.0, alpha_decay: 0.5, velocity_decay: 0.6 };
/// let mut alpha = 1.0;
/// let done = step(&mut sheet, &mut alpha, &Forces::new(1, &[None; 8]), settings, 0.3, 100, Lent { draws: &[], work: &mut [] })?;
/// assert_eq!((done.ticks, done.finished, alpha), (2, true, 0.25));
/// # Ok::<(), talemiku::Refusal>(())
/// ```
pub fn step(
    sheet: &mut [u8],
    alpha: &mut f64,
    forces: &Forces,
    settings: Settings,
    alpha_min: f64,
    budget: u64,
    lent: Lent<'_>,
) -> Result<Steps, Refusal> {
    let Settings { target, alpha_decay, velocity_decay } = settings;
    let Lent { draws, work } = lent;
    let mut bits = alpha.to_bits();
    let answer = raw::step(
        sheet,
        &mut bits,
        &forces.words,
        &forces.numbers,
        &forces.links,
        draws,
        target,
        alpha_decay,
        velocity_decay,
        alpha_min,
        budget,
        work,
    );
    *alpha = f64::from_bits(bits);
    let stop = Refusal::of(answer.refusal);
    match stop {
        Some(refusal) if !refusal.clears_work() => Err(refusal),
        _ => Ok(Steps {
            ticks: answer.ticks,
            finished: answer.finished != 0,
            counts: Counts { visits: answer.visits, draws: answer.draws as usize },
            stop,
        }),
    }
}
