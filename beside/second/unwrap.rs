//! The short way round (document 02, R-10): a second reading, the cases, and the archive's answers held to it.

use crate::fence::Fenced;
use crate::random::Random;
use std::fmt;
use talemiku::raw::{self, Refusal};

/// Half a turn in units of 1e-7 degree, and with it the ends of the range of longitudes.
const HALF: i64 = 1_800_000_000;
const TURN: i64 = 2 * HALF;
const DEGREE: i64 = HALF / 180;
/// So many corners are taken, and no more.
const MOST: usize = 4096;

struct Case {
    corners: Vec<i64>,
    centre: i64,
    /// How many numbers the output has.
    room: usize,
}

/// What a call answers, and what the output holds after it.
#[derive(PartialEq)]
struct Answer {
    refusal: Refusal,
    output: Vec<i64>,
}

// ---- the reading: whole turns are added or taken off, one by one

fn is_longitude(number: i64) -> bool {
    (-HALF..=HALF).contains(&number)
}

/// The equivalent of a number, whole turns away, in [middle - 180 degrees, middle + 180 degrees).
fn equivalent(number: i64, middle: i128) -> i128 {
    let (half, turn) = (i128::from(HALF), i128::from(TURN));
    let mut number = i128::from(number);
    while number < middle - half {
        number += turn;
    }
    while number >= middle + half {
        number -= turn;
    }
    number
}

/// The first corner goes to its equivalent around the centre, each later one to that around the corner before: its step from there is then in [-180 degrees, 180 degrees).
fn outline(corners: &[i64], centre: i64) -> Vec<i128> {
    let mut outline = Vec::new();
    for &corner in corners {
        let middle = outline.last().copied().unwrap_or_else(|| i128::from(centre));
        outline.push(equivalent(corner, middle));
    }
    outline
}

/// Whether one more short step, from the last corner to the first, returns to the first corner's number.
fn closes(corners: &[i64], outline: &[i128]) -> bool {
    match (corners.first(), outline.first(), outline.last()) {
        (Some(&corner), Some(&first), Some(&last)) => equivalent(corner, last) == first,
        _ => true,
    }
}

/// The unwrapped numbers, or what is refused, in the order in which the request names it.
fn unwrapped(case: &Case) -> Result<Vec<i64>, Refusal> {
    let refused = |number, place| Err(Refusal { number, place });
    if case.corners.len() > MOST {
        return refused(1, 0);
    }
    if case.room < case.corners.len() {
        return refused(2, 0);
    }
    for (place, &corner) in (0..).zip(&case.corners) {
        if !is_longitude(corner) {
            return refused(5, place);
        }
    }
    if !is_longitude(case.centre) {
        return refused(5, 0);
    }
    let outline = outline(&case.corners, case.centre);
    if !closes(&case.corners, &outline) {
        return refused(16, 0);
    }
    Ok(outline.into_iter().map(|number| i64::try_from(number).expect("half a turn for each corner is far within 64 bits")).collect())
}

/// What the call has to answer and to leave, from an output that holds these numbers.
fn reading(case: &Case, before: &[i64]) -> Answer {
    match unwrapped(case) {
        Ok(numbers) => Answer { refusal: Refusal { number: 0, place: 0 }, output: [&numbers[..], &before[numbers.len()..]].concat() },
        Err(refusal) => Answer { refusal, output: before.to_vec() },
    }
}

// ---- the archive, and both answers held to each other

/// What the call answers and leaves, or what is wrong beside these.
fn archive(case: &Case, before: &[i64], beside: i64) -> Result<Answer, &'static str> {
    let mut corners = Fenced::new(&case.corners, beside);
    let mut output = Fenced::new(before, !beside);
    let refusal = raw::unwrap(corners.part(), case.centre, output.part());
    if corners.now() != Some(&case.corners[..]) {
        return Err("the corners, or what lies beside them, are changed");
    }
    let output = output.now().ok_or("something is written beside the output")?.to_vec();
    Ok(Answer { refusal, output })
}

impl fmt::Display for Case {
    fn fmt(&self, out: &mut fmt::Formatter) -> fmt::Result {
        write!(out, "corners {:?}, centre {}, an output of {}", self.corners, self.centre, self.room)
    }
}

impl fmt::Display for Answer {
    fn fmt(&self, out: &mut fmt::Formatter) -> fmt::Result {
        write!(out, "number {}, place {}, output {:?}", self.refusal.number, self.refusal.place, self.output)
    }
}

/// With other rubbish lent for each case.
fn hold(all: impl Iterator<Item = Case>) -> bool {
    crate::hold("unwrap", all, |cases, case: &Case| {
        let mut rubbish = Random::new(!cases);
        let beside = rubbish.any();
        let before: Vec<i64> = (0..case.room).map(|_| rubbish.any()).collect();
        let read = reading(case, &before);
        let number = read.refusal.number;
        ((read, number), archive(case, &before, beside))
    })
}

// ---- every small case

/// What `every` takes for corners and centres.
const SMALL: [i64; 7] = [-HALF, 1 - HALF, -HALF / 2, 0, HALF / 2, HALF - 1, HALF];

/// Every list of so many of these.
fn lists(of: &[i64], length: usize) -> Vec<Vec<i64>> {
    (0..length)
        .fold(vec![Vec::new()], |shorter, _| shorter.iter().flat_map(|list| of.iter().map(move |&a| [&list[..], &[a]].concat())).collect())
}

/// Every list of at most four corners with every centre, and an output as long, one longer, and one shorter where there is a corner.
fn every() -> Vec<Case> {
    let mut all = Vec::new();
    for corners in (0..5).flat_map(|length| lists(&SMALL, length)) {
        let n = corners.len();
        for centre in SMALL {
            for room in n.saturating_sub(1)..=n + 1 {
                all.push(Case { corners: corners.clone(), centre, room });
            }
        }
    }
    all
}

// ---- random cases, the same for a seed on every machine

impl Random {
    /// Any 64 bits.
    fn any(&mut self) -> i64 {
        self.next() as i64
    }

    /// From -n to n.
    fn within(&mut self, n: i64) -> i64 {
        (self.next() % (2 * n as u64 + 1)) as i64 - n
    }

    /// Any longitude; at times one at or beside an end, at zero or at a right angle to it.
    fn longitude(&mut self) -> i64 {
        if self.once_in(4) {
            self.pick(&SMALL)
        } else {
            self.within(HALF)
        }
    }

    /// The longitude of a number that may lie many turns away; half a turn by either of its two names.
    fn longitude_of(&mut self, number: i64) -> i64 {
        match (number + HALF).rem_euclid(TURN) - HALF {
            longitude if longitude == -HALF => self.pick(&[-HALF, HALF]),
            longitude => longitude,
        }
    }
}

/// Numbers, each a step from the one before.
fn steps(r: &mut Random, n: usize, step: impl Fn(&mut Random) -> i64) -> Vec<i64> {
    let mut at = r.longitude();
    let mut numbers = Vec::new();
    for _ in 0..n {
        numbers.push(at);
        at += step(r);
    }
    numbers
}

/// Steps either way, of so many degrees at most: closed unless it strays.
fn walk(r: &mut Random, n: usize) -> Vec<i64> {
    let most = r.pick(&[1, 10, 45, 90, 120, 179, 180]) * DEGREE;
    steps(r, n, |r| r.within(most))
}

/// Steps one way, maybe round many times, and the same steps back: closed, and far from where it began in between.
fn there_and_back(r: &mut Random, n: usize) -> Vec<i64> {
    let way = r.pick(&[-1, 1]);
    let most = r.pick(&[1, 60, 179]) * DEGREE;
    let mut numbers = steps(r, (n + 1) / 2, |r| way * r.within(most).abs());
    numbers.extend(numbers.clone().iter().rev());
    numbers.truncate(n);
    numbers
}

/// A box that reaches the seam or crosses it: along one side and back along the other.
fn seam_box(r: &mut Random, n: usize) -> Vec<i64> {
    let width = r.pick(&[0, 1, DEGREE, 60 * DEGREE, HALF - 1, HALF, HALF + 1, TURN - 1]);
    let width = if r.once_in(2) { width } else { r.within(HALF).abs() };
    let west = HALF - r.within(width).abs();
    let (there, back) = (n / 2, n - n / 2);
    let last = back.saturating_sub(1).max(1) as i64;
    (0..there).chain((0..back).rev()).map(|i| west + width * i as i64 / last).collect()
}

/// Round a pole, once or a few times, either way.
fn round(r: &mut Random, n: usize) -> Vec<i64> {
    let start = r.longitude();
    let all = TURN * r.pick(&[1, 1, 1, -1, -1, -1, 2, -3]);
    let stray = r.pick(&[0, 1, DEGREE]);
    (0..n).map(|i| start + all * i as i64 / n as i64 + r.within(stray)).collect()
}

/// Steps of half a turn, one beside it, one or none.
fn half_turns(r: &mut Random, n: usize) -> Vec<i64> {
    let some = [-HALF - 1, -HALF, 1 - HALF, -1, 0, 1, HALF - 1, HALF, HALF + 1];
    steps(r, n, |r| r.pick(&some))
}

/// At the ends of the range and one beside, at zero and one beside, and at the right angles.
fn ends(r: &mut Random, n: usize) -> Vec<i64> {
    (0..n).map(|_| r.pick(&[HALF, HALF, HALF, 1 - HALF, HALF - 1, -HALF / 2, HALF / 2, -1, 0, 1])).collect()
}

/// Three longitudes at most, again and again.
fn few(r: &mut Random, n: usize) -> Vec<i64> {
    let some = [r.longitude(), r.longitude(), r.longitude()];
    (0..n).map(|_| r.pick(&some)).collect()
}

fn anywhere(r: &mut Random, n: usize) -> Vec<i64> {
    (0..n).map(|_| r.longitude()).collect()
}

/// What so many corners are made by.
const WAYS: [fn(&mut Random, usize) -> Vec<i64>; 10] =
    [walk, walk, there_and_back, seam_box, seam_box, round, half_turns, ends, few, anywhere];

/// So many corners, all in range, from any one of their outline on.
fn corners(r: &mut Random, n: usize) -> Vec<i64> {
    let mut numbers = r.pick(&WAYS)(r, n);
    if n > 0 {
        numbers.rotate_left(r.below(n));
    }
    numbers.into_iter().map(|number| r.longitude_of(number)).collect()
}

/// Anywhere, or at the first corner, or where it matters for that: half a turn away; or one beside these.
fn centre(r: &mut Random, corners: &[i64]) -> i64 {
    match corners.first() {
        Some(&first) if r.once_in(3) => {
            let away = r.pick(&[0, HALF]) + r.within(1);
            r.longitude_of(first + away)
        }
        _ => r.longitude(),
    }
}

/// How many corners the case of this number has: mostly a few, of 2,000 cases once as many as are taken and once more than that.
fn count(r: &mut Random, number: usize, max: usize) -> usize {
    match (number % 2000, r.below(40)) {
        (1000, _) => MOST,
        (0, _) => MOST + r.pick(&[1, 1, 1, 2, 100, MOST]),
        (_, 0) => 0,
        (_, 1..=11) => r.below(max + 1),
        _ => (1 + r.below(8)).min(max),
    }
}

/// A number that is no longitude: out of range by one or by far, turns away from one, or such that its lower half is one.
fn no_longitude(r: &mut Random) -> i64 {
    loop {
        let some = [HALF + 1, -HALF - 1, HALF + 2, -HALF - 2, TURN, -TURN, i64::MIN, i64::MIN + 1, i64::MAX, i64::MAX - 1];
        let number = match r.below(8) {
            0 => r.any(),
            1 => r.longitude() + TURN * r.within(5),
            2 => r.longitude() + (r.within(5) << 32),
            _ => r.pick(&some),
        };
        if !is_longitude(number) {
            return number;
        }
    }
}

/// A fault, if there is a place for it: a corner or the centre out of range, or a short output.
fn spoil(r: &mut Random, case: &mut Case) {
    let n = case.corners.len();
    match r.below(4) {
        0 => case.centre = no_longitude(r),
        1 if n > 0 => {
            let any = r.below(n);
            case.room = r.pick(&[0, any, n - 1, n - 1]);
        }
        _ if n > 0 => case.corners[r.below(n)] = no_longitude(r),
        _ => {}
    }
}

/// How many faults: mostly none, at times several, so that the order of the tests shows.
fn faults(r: &mut Random, n: usize) -> usize {
    match r.below(8) {
        _ if n > MOST => r.below(6),
        0 | 1 => 1,
        2 => 2 + r.below(3),
        _ => 0,
    }
}

fn case(r: &mut Random, number: usize, max: usize) -> Case {
    let n = count(r, number, max);
    let corners = corners(r, n);
    let centre = centre(r, &corners);
    let more = r.pick(&[1, 1, 1, 2, 2, 3, 10, 100]);
    let mut case = Case { corners, centre, room: n + r.below(more) };
    for _ in 0..faults(r, n) {
        spoil(r, &mut case);
    }
    case
}

/// `every`, or `SEED COUNT MAX`; whether nothing differs, and none for other words.
pub fn run(words: &[&str]) -> Option<bool> {
    match *words {
        ["every"] => Some(hold(every().into_iter())),
        _ => crate::random(words, case).map(hold),
    }
}
