//! Tick and step.

use crate::case::{Force, Tick};
use crate::fence::Fenced;
use crate::lent::{expect, hexes, lengths_rule, refused, require, same, zeroes_work, Layout, Line, BAD_LENGTH, WORK};
use crate::tree::sheet;
use talemiku::raw::{self, StepAnswer};
use talemiku::{particles_of, Forces, Links, RECORD_BYTES};

/// What a tick or a step is lent.
#[derive(Clone)]
struct Call {
    sheet: Vec<u8>,
    alpha: f64,
    forces: Forces,
    draws: Vec<f64>,
    settings: [f64; 3],
    /// For a step: `alpha_min`, and how many ticks.
    step: Option<(f64, u64)>,
    work: Vec<u64>,
}

/// What it leaves; of a tick that is done, one is counted.
struct Left {
    answer: StepAnswer,
    sheet: Vec<u8>,
    alpha: u64,
}

/// Words of an entry that its kind doesn't use: they aren't looked at, so they hold rubbish.
fn unused(kind: u64) -> &'static [usize] {
    match kind {
        1 => &[1, 2, 3, 4, 5, 6],
        2 => &[2, 3, 5, 6],
        3 => &[4, 5, 6],
        4 => &[1, 2, 3],
        _ => &[1, 2, 3, 4, 5, 6],
    }
}

fn packed(forces: &[Force], layout: &mut Layout) -> Forces {
    let ends: Vec<Vec<u32>> = forces
        .iter()
        .map(|force| match force {
            Force::Link { links, .. } => links.iter().flat_map(|&(s, t)| [s as u32, t as u32]).collect(),
            _ => Vec::new(),
        })
        .collect();
    let mut slots = [None; 8];
    for ((slot, force), ends) in slots.iter_mut().zip(forces).zip(&ends) {
        *slot = match force {
            Force::Empty | Force::Unknown(_) => None,
            Force::ManyBody { strengths } => Some(talemiku::Force::ManyBody { strengths }),
            Force::Collide { strength, iterations, radii } => {
                Some(talemiku::Force::Collide { radii, strength: *strength, iterations: *iterations as usize })
            }
            Force::Link { iterations, strengths, distances, .. } => {
                Some(talemiku::Force::Link(Links { ends, strengths, distances, iterations: *iterations as usize }))
            }
            Force::Center { x, y, strength } => Some(talemiku::Force::Center { x: *x, y: *y, strength: *strength }),
        };
    }
    let mut packed = Forces::pack(&slots);
    packed.numbers = layout.numbers(&packed.numbers);
    for (entry, force) in packed.words.chunks_exact_mut(7).zip(forces) {
        if let Force::Unknown(kind) = force {
            entry[0] = *kind;
        }
        for &k in unused(entry[0]) {
            entry[k] = WORK;
        }
    }
    packed
}

impl Call {
    fn new(tick: &Tick, step: Option<(f64, u64)>, layout: &mut Layout) -> Call {
        Call {
            sheet: sheet(&tick.particles, layout),
            alpha: layout.number(tick.alpha),
            forces: packed(&tick.forces, layout),
            draws: layout.numbers(&tick.draws),
            settings: [layout.number(tick.target), layout.number(tick.decay), layout.number(tick.velocity_decay)],
            step,
            work: layout.work(tick.slots),
        }
    }

    fn enter(&self, sheet: &mut [u8], alpha: &mut u64, work: &mut [u64]) -> StepAnswer {
        let Forces { words, numbers, links } = &self.forces;
        let [target, alpha_decay, velocity_decay] = self.settings;
        if let Some((alpha_min, budget)) = self.step {
            return raw::step(
                sheet,
                alpha,
                words,
                numbers,
                links,
                &self.draws,
                target,
                alpha_decay,
                velocity_decay,
                alpha_min,
                budget,
                work,
            );
        }
        let counts = raw::tick(sheet, alpha, words, numbers, links, &self.draws, target, alpha_decay, velocity_decay, work);
        let done = u64::from(counts.refusal.number == 0);
        StepAnswer { refusal: counts.refusal, ticks: done, finished: 0, visits: counts.visits, draws: counts.draws }
    }

    /// Runs a copy, and tests all but what the ticks done leave.
    fn run(&self) -> Result<Left, String> {
        let lent = self.clone();
        let mut sheet = Fenced::new(&self.sheet, 0xfe);
        let mut alpha = Fenced::new(&[self.alpha.to_bits()], WORK);
        let mut work = Fenced::new(&self.work, WORK);
        let answer = lent.enter(sheet.part(), &mut alpha.part()[0], work.part());
        let number = answer.refusal.number;
        let sheet = sheet.now().ok_or("written beside the sheet")?.to_vec();
        let alpha = alpha.now().ok_or("written beside alpha")?[0];
        let work = work.now().ok_or("written beside the work slots")?;
        let numbers = same(&self.forces.numbers, &lent.forces.numbers) && same(&self.draws, &lent.draws);
        let kept = numbers && self.forces.words == lent.forces.words && self.forces.links == lent.forces.links;
        require(kept, "a list is changed", number)?;
        let worked = if zeroes_work(number) { work.iter().all(|&w| w == 0) } else { work == self.work };
        require(worked, "work slots are wrong", number)?;
        require(number != 0 || answer.refusal.place == 0, "a place though nothing is refused", number)?;
        let flags = sheet.chunks(RECORD_BYTES).zip(self.sheet.chunks(RECORD_BYTES)).all(|(now, before)| now.get(32..) == before.get(32..));
        require(flags, "flags are changed", number)?;
        if self.step.is_none() || !zeroes_work(number) {
            self.refused(&answer, &sheet, alpha)?;
        }
        Ok(Left { answer, sheet, alpha })
    }

    /// Where the whole call is refused nothing is counted and nothing changed.
    fn refused(&self, answer: &StepAnswer, sheet: &[u8], alpha: u64) -> Result<(), String> {
        let number = answer.refusal.number;
        if number == 0 {
            return Ok(());
        }
        let nothing = answer.ticks == 0 && answer.finished == 0 && answer.visits == 0 && answer.draws == 0;
        require(nothing, "counts aren't zero", number)?;
        require(sheet == self.sheet && alpha == self.alpha.to_bits(), "sheet or alpha are changed", number)
    }

    /// The same with lengths that disagree; the first two are bad lengths of the sheet.
    fn varied(&self) -> Vec<Call> {
        let mut all = vec![self.clone(); 4];
        all[0].sheet.push(0);
        all[1].sheet.extend(vec![0; 39]);
        all[2].forces.links.resize(self.forces.links.len() / 2 * 2 + 1, 0);
        all[3].forces.numbers.push(0.5);
        all
    }

    /// Runs it and its variations.
    fn checked(&self) -> Result<Left, String> {
        let left = self.run()?;
        let refusal = left.answer.refusal;
        for (i, varied) in self.varied().iter().enumerate() {
            // a total that was wrong may have become right
            if i == 3 && refusal.number == 2 {
                continue;
            }
            let expected = if i < 2 { BAD_LENGTH } else { lengths_rule(refusal) };
            expect("other lengths", expected, varied.run()?.answer.refusal)?;
        }
        Ok(left)
    }
}

fn moved(head: String, sheet: &[u8]) -> String {
    head + &hexes(particles_of(sheet).into_iter().flat_map(|p| [p.x, p.y, p.vx, p.vy]))
}

pub fn tick(tick: &Tick, layout: &mut Layout) -> Line {
    let left = Call::new(tick, None, layout).checked()?;
    let a = left.answer;
    if a.refusal.number != 0 {
        return Ok(refused(a.refusal));
    }
    Ok(moved(format!("ok {} {} {:016x} |", a.visits, a.draws, left.alpha), &left.sheet))
}

pub fn step(tick: &Tick, min: f64, budget: u64, layout: &mut Layout) -> Line {
    let left = Call::new(tick, Some((layout.number(min), budget)), layout).checked()?;
    let a = left.answer;
    if !zeroes_work(a.refusal.number) {
        return Ok(refused(a.refusal));
    }
    let counts = format!("{} {} {} {}", a.ticks, a.finished, a.visits, a.draws);
    let head = format!("ok {counts} {:016x} {} {} |", left.alpha, a.refusal.number, a.refusal.place);
    Ok(moved(head, &left.sheet))
}
