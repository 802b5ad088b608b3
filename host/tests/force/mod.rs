//! What the tests of the three forces share: a call with velocities in the middle of a longer buffer, at an odd byte, and a look at every lent byte.
use crate::fence::Fenced;
use talemiku::{velocities_of, velocity_bytes, Counts, Lent, Points, Refusal, SLOT_WORDS};

const WORK: u64 = 0x7ff4_0000_dead_beef;
const START: usize = 13;
const REST: usize = 27;

/// What lies beside the velocities: NaNs with payloads, from whatever byte they are read.
fn beside(count: usize) -> Vec<u8> {
    (0..count).map(|i| [0xef, 0xbe, 0xf4, 0x7f, 0xf1, 0xff, 0xf7, 0x7f][i % 8]).collect()
}

/// Counts and velocities after a call, or the refusal.
pub type Pushed = Result<(u64, usize, Vec<f64>), Refusal>;

/// The buffer that is lent, of so many bytes in all: beside, velocities, beside.
pub fn buffer(velocities: &[f64]) -> Vec<u8> {
    [beside(START), velocity_bytes(velocities), beside(REST)].concat()
}

/// Calls with these places and velocities and looks at all that was lent.
pub fn push(
    places: &[f64],
    velocities: &[f64],
    slots: usize,
    draws: &[f64],
    call: impl FnOnce(Points<'_>, Lent<'_>) -> Result<Counts, Refusal>,
) -> Pushed {
    push_from(places, &buffer(velocities), START, slots, draws, call)
}

/// The same with a buffer and a start of its own.
pub fn push_from(
    places: &[f64],
    buffer: &[u8],
    start: usize,
    slots: usize,
    draws: &[f64],
    call: impl FnOnce(Points<'_>, Lent<'_>) -> Result<Counts, Refusal>,
) -> Pushed {
    let work = vec![WORK; slots * SLOT_WORDS + 5];
    let zero = vec![0; work.len()];
    let mut lent_buffer = Fenced::new(buffer, 0xfe);
    let mut lent_work = Fenced::new(&work, WORK);
    let points = Points { places, buffer: lent_buffer.part(), start };
    let answer = call(points, Lent { draws, work: lent_work.part() });
    let buffer_now = lent_buffer.now().expect("beside the buffer");
    let work_now = lent_work.now().expect("beside the work");
    match answer {
        Err(refusal) => {
            assert_eq!(buffer_now, buffer, "buffer after {refusal}");
            assert_eq!(work_now, if refusal.clears_work() { &zero } else { &work }, "work after {refusal}");
            Err(refusal)
        }
        Ok(counts) => {
            let end = start + places.len() * 8;
            assert_eq!(work_now, zero);
            assert_eq!((&buffer_now[..start], &buffer_now[end..]), (&buffer[..start], &buffer[end..]), "outside the part");
            Ok((counts.visits, counts.draws, velocities_of(&buffer_now[start..end])))
        }
    }
}
