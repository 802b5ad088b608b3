//! The tree call.

use crate::case::Record;
use crate::fence::Fenced;
use crate::lent::{expect, hexes, lengths_rule, refused, require, zeroes_work, Layout, Line, BAD_LENGTH, RESULT, WORK};
use talemiku::raw::{self, TreeAnswer};
use talemiku::{Particle, ROW_NUMBERS};

/// What the call is lent.
#[derive(Clone)]
struct Call {
    sheet: Vec<u8>,
    rows: Vec<u32>,
    chains: Vec<u32>,
    work: Vec<u64>,
}

/// What it leaves.
struct Left {
    answer: TreeAnswer,
    rows: Vec<u32>,
    chains: Vec<u32>,
}

pub fn particle(r: &Record, layout: &mut Layout) -> Particle {
    Particle { x: layout.number(r.x), y: layout.number(r.y), vx: layout.number(r.vx), vy: layout.number(r.vy), flags: r.flags }
}

pub fn sheet(records: &[Record], layout: &mut Layout) -> Vec<u8> {
    records.iter().flat_map(|r| particle(r, layout).to_record()).collect()
}

impl Call {
    /// Runs it, and tests all but the lists of an accepted call.
    fn run(&self) -> Result<Left, String> {
        let sheet = self.sheet.clone();
        let mut rows = Fenced::new(&self.rows, RESULT);
        let mut chains = Fenced::new(&self.chains, RESULT);
        let mut work = Fenced::new(&self.work, WORK);
        let answer = raw::tree(&sheet, rows.part(), chains.part(), work.part());
        let number = answer.refusal.number;
        let rows = rows.now().ok_or("written beside the rows")?.to_vec();
        let chains = chains.now().ok_or("written beside the chains")?.to_vec();
        let work = work.now().ok_or("written beside the work slots")?;
        require(sheet == self.sheet, "the sheet is changed", number)?;
        let worked = if zeroes_work(number) { work.iter().all(|&w| w == 0) } else { work == self.work };
        require(worked, "work slots are wrong", number)?;
        if number != 0 {
            let e = answer.extent;
            require(rows == self.rows && chains == self.chains, "results are changed", number)?;
            require(answer.nodes == 0 && [e.x0, e.y0, e.x1, e.y1].iter().all(|end| end.to_bits() == 0), "counts aren't zero", number)?;
        }
        Ok(Left { answer, rows, chains })
    }

    /// The same with lengths that disagree; the first two are bad lengths of the sheet.
    fn varied(&self) -> Vec<Call> {
        let mut all = vec![self.clone(); 6];
        all[0].sheet.push(0);
        all[1].sheet.extend(vec![0; 39]);
        all[2].rows.push(RESULT);
        all[3].rows.extend([RESULT; ROW_NUMBERS]);
        all[4].chains.push(RESULT);
        all[5].work.extend([WORK; 8]);
        if !self.chains.is_empty() {
            let mut shorter = self.clone();
            shorter.chains.pop();
            all.push(shorter);
        }
        all
    }
}

fn line(left: &Left) -> Line {
    let answer = left.answer;
    if answer.refusal.number != 0 {
        return Ok(refused(answer.refusal));
    }
    let used = answer.nodes as usize * ROW_NUMBERS;
    require(used <= left.rows.len() && left.rows[used..].iter().all(|&w| w == 0), "unused rows aren't zero", 0)?;
    require(answer.refusal.place == 0, "a place though nothing is refused", 0)?;
    let e = answer.extent;
    let rows: String = left.rows[..used].chunks(ROW_NUMBERS).map(|row| format!(" {},{},{},{}", row[0], row[1], row[2], row[3])).collect();
    let chains: String = left.chains.iter().map(|number| format!(" {number}")).collect();
    Ok(format!("ok{} {} |{rows} |{chains}", hexes([e.x0, e.y0, e.x1, e.y1]), answer.nodes))
}

pub fn answer(slots: usize, records: &[Record], layout: &mut Layout) -> Line {
    let call = Call {
        sheet: sheet(records, layout),
        rows: vec![RESULT; slots * ROW_NUMBERS],
        chains: vec![RESULT; records.len()],
        work: layout.work(slots),
    };
    let left = call.run()?;
    for (i, varied) in call.varied().iter().enumerate() {
        let expected = if i < 2 { BAD_LENGTH } else { lengths_rule(left.answer.refusal) };
        expect("other lengths", expected, varied.run()?.answer.refusal)?;
    }
    line(&left)
}
