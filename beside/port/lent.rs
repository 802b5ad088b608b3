//! How things are lent: rubbish in work slots and results, NaNs with payloads beside a part, and what each refusal may leave.

use talemiku::raw::Refusal;

/// An answer's line, or what is wrong.
pub type Line = Result<String, String>;

/// What result lists and work slots hold before a call.
pub const RESULT: u32 = 0xdead_beef;
pub const WORK: u64 = 0x7ff4_0000_dead_beef;

/// What differs from call to call: small numbers from a case's own line, the same on every machine.
pub struct Layout(u64);

impl Layout {
    pub fn of(line: &str) -> Layout {
        Layout(line.bytes().fold(0xcbf2_9ce4_8422_2325, |hash, byte| (hash ^ u64::from(byte)).wrapping_mul(0x0000_0100_0000_01b3)))
    }

    pub fn below(&mut self, n: usize) -> usize {
        self.0 = self.0.wrapping_mul(6364136223846793005).wrapping_add(1442695040888963407);
        ((self.0 >> 33) % n as u64) as usize
    }

    /// Bytes that are NaNs with payloads, from whatever byte they are read.
    pub fn bytes(&mut self, count: usize) -> Vec<u8> {
        let turn = self.below(8);
        (0..count).map(|i| [0xef, 0xbe, 0xf4, 0x7f, 0xf1, 0xff, 0xf7, 0x7f][(i + turn) % 8]).collect()
    }

    /// A NaN with some payload and sign for a NaN; any other number as it is.
    pub fn number(&mut self, x: f64) -> f64 {
        match self.below(3) {
            0 if x.is_nan() => f64::from_bits(0x7ff0_0000_0000_0001 + self.below(99) as u64),
            1 if x.is_nan() => f64::from_bits(0xfff8_0000_0bad_0000 + self.below(99) as u64),
            _ => x,
        }
    }

    pub fn numbers(&mut self, list: &[f64]) -> Vec<f64> {
        list.iter().map(|&x| self.number(x)).collect()
    }

    /// Work for so many slots, and at times a few words more: they are zeroed with the rest, and hold no node.
    pub fn work(&mut self, slots: usize) -> Vec<u64> {
        vec![WORK; slots * talemiku::SLOT_WORDS + self.below(8)]
    }
}

/// The bits of numbers, as an answer's line has them.
pub fn hexes(numbers: impl IntoIterator<Item = f64>) -> String {
    numbers.into_iter().map(|x| format!(" {:016x}", x.to_bits())).collect()
}

pub fn refused(refusal: Refusal) -> String {
    format!("refused {} {}", refusal.number, refusal.place)
}

/// Whether work is zero after a reply with this number: if it was accepted, or refused while working. Otherwise it is as it was.
pub fn zeroes_work(number: u64) -> bool {
    number == 0 || (6..=9).contains(&number)
}

/// What a list holds that nothing may change, compared to the bit.
pub fn same(before: &[f64], now: &[f64]) -> bool {
    before.len() == now.len() && before.iter().zip(now).all(|(b, n)| b.to_bits() == n.to_bits())
}

pub fn require(fine: bool, wrong: &str, number: u64) -> Result<(), String> {
    if fine {
        Ok(())
    } else {
        Err(format!("{wrong}, after {number}"))
    }
}

/// 01's rule where lengths disagree: 1 comes before 2, and 2 before all that would follow.
pub fn lengths_rule(otherwise: Refusal) -> Refusal {
    if otherwise.number == 1 {
        otherwise
    } else {
        Refusal { number: 2, place: 0 }
    }
}

/// 01's rule for a bad length, which comes before all else.
pub const BAD_LENGTH: Refusal = Refusal { number: 10, place: 0 };

/// A case lent in another way has to be refused so.
pub fn expect(what: &str, expected: Refusal, got: Refusal) -> Result<(), String> {
    if expected == got {
        Ok(())
    } else {
        Err(format!("{what}: {}, not {}", refused(got), refused(expected)))
    }
}
