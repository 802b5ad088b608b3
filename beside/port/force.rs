//! ManyBody, Collide and Link, each called alone.

use crate::case::{Force, Record};
use crate::fence::Fenced;
use crate::lent::{expect, hexes, lengths_rule, refused, require, same, zeroes_work, Layout, Line, WORK};
use talemiku::raw::{self, Counts};

#[derive(Clone, Copy, PartialEq)]
enum Kind {
    ManyBody,
    Collide,
    Link,
}

/// What a force is lent. Of `lists`, Link has two (strengths, distances) and the others one; `setting` is Collide's strength, and alpha of the others.
#[derive(Clone)]
struct Call {
    kind: Kind,
    places: Vec<f64>,
    buffer: Vec<u8>,
    start: usize,
    links: Vec<u32>,
    lists: [Vec<f64>; 2],
    setting: f64,
    iterations: usize,
    draws: Vec<f64>,
    work: Vec<u64>,
}

/// What it leaves.
struct Left {
    counts: Counts,
    buffer: Vec<u8>,
}

/// A velocity pair's bytes.
const PAIR: usize = 16;

impl Call {
    fn new(slots: usize, force: &Force, alpha: f64, records: &[Record], draws: &[f64], layout: &mut Layout) -> Result<Call, String> {
        let start = layout.below(40);
        let mut buffer = layout.bytes(start);
        let mut places = Vec::new();
        for r in records {
            places.extend([layout.number(r.x), layout.number(r.y)]);
            buffer.extend(talemiku::velocity_bytes(&[layout.number(r.vx), layout.number(r.vy)]));
        }
        let rest = layout.below(40);
        buffer.extend(layout.bytes(rest));
        let (kind, links, lists, setting, iterations) = match force {
            Force::ManyBody { strengths } => (Kind::ManyBody, Vec::new(), [&strengths[..], &[]], alpha, 0),
            Force::Collide { strength, iterations, radii } => (Kind::Collide, Vec::new(), [&radii[..], &[]], *strength, *iterations),
            Force::Link { iterations, links, strengths, distances } => {
                let ends = links.iter().flat_map(|&(s, t)| [s as u32, t as u32]).collect();
                (Kind::Link, ends, [&strengths[..], &distances[..]], alpha, *iterations)
            }
            _ => return Err("not one of the three forces".to_string()),
        };
        Ok(Call {
            kind,
            places,
            buffer,
            start,
            links,
            lists: lists.map(|list| layout.numbers(list)),
            setting: layout.number(setting),
            iterations: iterations as usize,
            draws: layout.numbers(draws),
            work: layout.work(slots),
        })
    }

    fn enter(&self, buffer: &mut [u8], work: &mut [u64]) -> Counts {
        let [first, second] = &self.lists;
        match self.kind {
            Kind::ManyBody => raw::many_body(&self.places, buffer, self.start, first, self.setting, &self.draws, work),
            Kind::Collide => raw::collide(&self.places, buffer, self.start, first, self.setting, self.iterations, &self.draws, work),
            Kind::Link => {
                raw::link(&self.places, buffer, self.start, &self.links, first, second, self.iterations, self.setting, &self.draws, work)
            }
        }
    }

    /// Where the velocities end.
    fn end(&self) -> usize {
        self.start + self.places.len() / 2 * PAIR
    }

    /// Runs a copy, and tests all but the velocities of an accepted call.
    fn run(&self) -> Result<Left, String> {
        let lent = self.clone();
        let mut buffer = Fenced::new(&self.buffer, 0xfe);
        let mut work = Fenced::new(&self.work, WORK);
        let counts = lent.enter(buffer.part(), work.part());
        let number = counts.refusal.number;
        let buffer = buffer.now().ok_or("written beside the buffer")?.to_vec();
        let work = work.now().ok_or("written beside the work slots")?;
        let lists = self.lists.iter().zip(&lent.lists).all(|(before, now)| same(before, now));
        let kept = same(&self.places, &lent.places) && lists && same(&self.draws, &lent.draws) && self.links == lent.links;
        require(kept, "a list is changed", number)?;
        let worked = if zeroes_work(number) { work.iter().all(|&w| w == 0) } else { work == self.work };
        require(worked, "work slots are wrong", number)?;
        if number != 0 {
            require(buffer == self.buffer, "the buffer is changed", number)?;
            require(counts.visits == 0 && counts.draws == 0, "counts aren't zero", number)?;
        } else {
            let (start, end) = (self.start, self.end());
            let outside = buffer[..start] == self.buffer[..start] && buffer[end..] == self.buffer[end..];
            require(outside, "bytes outside the part are changed", number)?;
            require(counts.refusal.place == 0, "a place though nothing is refused", number)?;
        }
        Ok(Left { counts, buffer })
    }

    /// The same with lengths that disagree: a part that reaches past the buffer, a place or a link's end without its other.
    fn varied(&self) -> Vec<Call> {
        let mut all = vec![self.clone(); 5];
        all[0].places.push(0.5);
        all[1].start = usize::MAX - self.iterations % 40;
        all[2].start = self.buffer.len() + 1;
        all[3].start = self.buffer.len() - (self.end() - self.start) + 1;
        if self.kind == Kind::Link {
            all[4].links.push(0);
        } else {
            all[4].lists[0].push(0.5);
            // where the list was one too short it is right now
            if self.lists[0].len() + 1 == self.places.len() / 2 {
                all.truncate(4);
            }
        }
        all
    }
}

pub fn answer(slots: usize, force: &Force, alpha: f64, records: &[Record], draws: &[f64], layout: &mut Layout) -> Line {
    let call = Call::new(slots, force, alpha, records, draws, layout)?;
    let left = call.run()?;
    let counts = left.counts;
    for varied in call.varied() {
        expect("other lengths", lengths_rule(counts.refusal), varied.run()?.counts.refusal)?;
    }
    if counts.refusal.number != 0 {
        return Ok(refused(counts.refusal));
    }
    let velocities = talemiku::velocities_of(&left.buffer[call.start..call.end()]);
    Ok(format!("ok {} {} |{}", counts.visits, counts.draws, hexes(velocities)))
}
