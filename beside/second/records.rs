//! Sheets written out and read (document 02, R-1, and what document 01 says of records): a second reading, the cases, and the archive's answers held to it, both ways round.

use crate::fence::Fenced;
use crate::random::Random;
use std::fmt;
use talemiku::raw::{self, Particle, Refusal};

/// So many particles are taken, and no more; no coordinate lies further from zero; the last flags that are known; bytes of a record.
const MOST: usize = 4096;
pub const FARTHEST: f64 = 1_099_511_627_776.0;
const KNOWN: u64 = 3;
pub const RECORD: usize = 40;

/// A particle by its bits: x, y, vx, vy, flags.
pub type Words = [u64; 5];

/// A call, and how long the list is that it may change: bytes of a sheet, or places for particles.
enum Case {
    Write(Vec<Words>, usize),
    Read(Vec<u8>, usize),
}

/// What a call answers, and what the list holds after it.
#[derive(PartialEq)]
enum Answer {
    Written(Refusal, Vec<u8>),
    Read(Refusal, Vec<Words>),
}

// ---- the reading: what a record is

/// x, y, vx, vy as f64 bits and the flags, the lowest byte of each first.
pub fn record(words: &Words) -> Vec<u8> {
    words.iter().flat_map(|word| (0..8).map(move |k| (word >> (8 * k) & 0xff) as u8)).collect()
}

pub fn words(record: &[u8]) -> Words {
    let word = |k: usize| (0..8).fold(0, |word, byte| word | u64::from(record[8 * k + byte]) << (8 * byte));
    [word(0), word(1), word(2), word(3), word(4)]
}

/// Not a NaN, not infinite, not beyond 2^40.
fn is_coordinate(bits: u64) -> bool {
    (-FARTHEST..=FARTHEST).contains(&f64::from_bits(bits))
}

/// By which number a record is refused: flags, then coordinates, then velocities.
pub fn fault(&[x, y, vx, vy, flags]: &Words) -> Option<u64> {
    if flags > KNOWN {
        Some(10)
    } else if !is_coordinate(x) || !is_coordinate(y) {
        Some(4)
    } else if !f64::from_bits(vx).is_finite() || !f64::from_bits(vy).is_finite() {
        Some(5)
    } else {
        None
    }
}

fn refused<A>(number: u64, place: u64) -> Result<A, Refusal> {
    Err(Refusal { number, place })
}

/// 1, then 2 for so much room where so much is wanted, then the first bad record.
fn checks(particles: &[Words], room: usize, wanted: usize) -> Result<(), Refusal> {
    if particles.len() > MOST {
        return refused(1, 0);
    }
    if room < wanted {
        return refused(2, 0);
    }
    for (place, particle) in (0..).zip(particles) {
        if let Some(number) = fault(particle) {
            return refused(number, place);
        }
    }
    Ok(())
}

/// Particles in, records out in index order.
fn sheet_of(particles: &[Words], room: usize) -> Result<Vec<u8>, Refusal> {
    checks(particles, room, RECORD * particles.len())?;
    Ok(particles.iter().flat_map(record).collect())
}

/// 10 for the length comes first of all.
fn particles_of(sheet: &[u8], room: usize) -> Result<Vec<Words>, Refusal> {
    if sheet.len() % RECORD != 0 {
        return refused(10, 0);
    }
    let particles: Vec<Words> = sheet.chunks(RECORD).map(words).collect();
    checks(&particles, room, particles.len())?;
    Ok(particles)
}

/// The refusal, if it is one, and what a list holds that held this before: a longer one keeps its rest, and a refusal changes nothing.
fn left<A: Clone>(answer: Result<Vec<A>, Refusal>, before: &[A]) -> (Refusal, Vec<A>) {
    match answer {
        Ok(made) => (Refusal { number: 0, place: 0 }, [&made[..], &before[made.len()..]].concat()),
        Err(refusal) => (refusal, before.to_vec()),
    }
}

/// What a list of particles holds as far as it is said: of a NaN that it is one. A list that is lent to be changed is said by value, so its NaNs may come back with other payloads.
fn said(&[x, y, vx, vy, flags]: &Words) -> Words {
    let bits = |bits: u64| if f64::from_bits(bits).is_nan() { f64::NAN.to_bits() } else { bits };
    [bits(x), bits(y), bits(vx), bits(vy), flags]
}

fn all_said(list: &[Words]) -> Vec<Words> {
    list.iter().map(said).collect()
}

// ---- the archive, and both answers held to each other

fn particle(&[x, y, vx, vy, flags]: &Words) -> Particle {
    Particle { x: f64::from_bits(x), y: f64::from_bits(y), vx: f64::from_bits(vx), vy: f64::from_bits(vy), flags }
}

fn bits(p: &Particle) -> Words {
    [p.x.to_bits(), p.y.to_bits(), p.vx.to_bits(), p.vy.to_bits(), p.flags]
}

/// Particles lent from the middle of others.
fn lend(list: &[Words], beside: u64) -> Fenced<Particle> {
    let fence = Particle { x: 1e300, y: -1e300, vx: 3.5, vy: -3.5, flags: beside };
    Fenced::new(&list.iter().map(particle).collect::<Vec<_>>(), fence)
}

fn held(list: &Fenced<Particle>) -> Option<Vec<Words>> {
    list.now().map(|now| now.iter().map(bits).collect())
}

/// What the writer answers and leaves; the particles are only read, so they are compared to the bit.
fn write(particles: &[Words], before: &[u8], beside: u64) -> Result<(Refusal, Vec<u8>), &'static str> {
    let mut lent = lend(particles, beside);
    let mut sheet = Fenced::new(before, beside as u8);
    let refusal = raw::write(lent.part(), sheet.part());
    if held(&lent).as_deref() != Some(particles) {
        return Err("the particles, or what lies beside them, are changed");
    }
    Ok((refusal, sheet.now().ok_or("something is written beside the sheet")?.to_vec()))
}

/// What the reader answers and leaves.
fn read(sheet: &[u8], before: &[Words], beside: u64) -> Result<(Refusal, Vec<Words>), &'static str> {
    let mut lent = Fenced::new(sheet, beside as u8);
    let mut list = lend(before, !beside);
    let refusal = raw::read(lent.part(), list.part());
    if lent.now() != Some(sheet) {
        return Err("the sheet, or what lies beside it, is changed");
    }
    Ok((refusal, held(&list).ok_or("something is written beside the list")?))
}

/// The case's call, and if it is accepted the other one on what it gave, which has to lead back to the bit.
fn archive(case: &Case, before: &Lent) -> Result<Answer, &'static str> {
    match case {
        Case::Write(particles, _) => {
            let (refusal, sheet) = write(particles, &before.sheet, before.beside)?;
            if refusal.number == 0 {
                let written = sheet.get(..RECORD * particles.len()).ok_or("a short output is accepted")?;
                let (again, list) = read(written, &before.list, before.beside)?;
                let (first, rest) = list.split_at(particles.len());
                if again != refusal || first != &particles[..] {
                    return Err("reading what was written gives other particles");
                }
                if all_said(rest) != all_said(&before.list[particles.len()..]) {
                    return Err("reading what was written changes the rest of the list");
                }
            }
            Ok(Answer::Written(refusal, sheet))
        }
        Case::Read(sheet, _) => {
            let (refusal, list) = read(sheet, &before.list, before.beside)?;
            if refusal.number == 0 {
                let particles = list.get(..sheet.len() / RECORD).ok_or("a short list is accepted")?;
                let (again, bytes) = write(particles, &before.sheet, before.beside)?;
                let (first, rest) = bytes.split_at(sheet.len());
                if again != refusal || first != &sheet[..] {
                    return Err("writing what was read gives another sheet");
                }
                if rest != &before.sheet[sheet.len()..] {
                    return Err("writing what was read changes the rest of the output");
                }
            }
            Ok(Answer::Read(refusal, all_said(&list)))
        }
    }
}

/// What is lent to be changed holds this before, and what lies beside it is made of this word.
struct Lent {
    sheet: Vec<u8>,
    list: Vec<Words>,
    beside: u64,
}

impl Case {
    /// Rubbish, other for each case: as much of the one list as the case says, and of the other what leads back, and at times more.
    fn lent(&self, number: u64) -> Lent {
        let mut r = Random::new(!number);
        let more = r.below(3);
        let (bytes, places) = match self {
            Case::Write(particles, room) => (*room, particles.len() + more),
            Case::Read(sheet, room) => (sheet.len() + more, *room),
        };
        let beside = r.next();
        let sheet = (0..bytes).map(|_| r.next() as u8).collect();
        let list = (0..places).map(|_| r.rubbish()).collect();
        Lent { sheet, list, beside }
    }

    fn read(&self, before: &Lent) -> (Answer, u64) {
        match self {
            Case::Write(particles, room) => {
                let (refusal, sheet) = left(sheet_of(particles, *room), &before.sheet);
                (Answer::Written(refusal, sheet), refusal.number)
            }
            Case::Read(sheet, room) => {
                let (refusal, list) = left(particles_of(sheet, *room), &before.list);
                (Answer::Read(refusal, all_said(&list)), refusal.number)
            }
        }
    }
}

fn shown(&[x, y, vx, vy, flags]: &Words) -> String {
    format!("({:?} {:?} {:?} {:?} {flags})", f64::from_bits(x), f64::from_bits(y), f64::from_bits(vx), f64::from_bits(vy))
}

fn all_shown(list: &[Words]) -> String {
    list.iter().map(shown).collect::<Vec<_>>().join(" ")
}

impl fmt::Display for Case {
    fn fmt(&self, out: &mut fmt::Formatter) -> fmt::Result {
        match self {
            Case::Write(particles, room) => write!(out, "write {} particles into {room} bytes: {}", particles.len(), all_shown(particles)),
            Case::Read(sheet, room) => write!(out, "read {} bytes into {room} places: {sheet:?}", sheet.len()),
        }
    }
}

impl fmt::Display for Answer {
    fn fmt(&self, out: &mut fmt::Formatter) -> fmt::Result {
        match self {
            Answer::Written(refusal, sheet) => write!(out, "number {}, place {}, sheet {sheet:?}", refusal.number, refusal.place),
            Answer::Read(refusal, list) => write!(out, "number {}, place {}, list {}", refusal.number, refusal.place, all_shown(list)),
        }
    }
}

fn hold(all: impl Iterator<Item = Case>) -> bool {
    crate::hold("records", all, |number, case: &Case| {
        let before = case.lent(number);
        (case.read(&before), archive(case, &before))
    })
}

// ---- every small case

const INFINITE: u64 = 0x7ff0 << 48;
const SIGN: u64 = 1 << 63;

fn of(x: f64, y: f64, vx: f64, vy: f64, flags: u64) -> Words {
    [x.to_bits(), y.to_bits(), vx.to_bits(), vy.to_bits(), flags]
}

/// What `every` takes for particles: five that are taken, among them the last coordinates, the greatest velocities, the least numbers and a zero with a sign; those just beyond; and others that
/// are bad in one way or in two or three.
fn small() -> Vec<Words> {
    let (far, least) = (FARTHEST.to_bits(), f64::from_bits(1));
    let good = of(1.5, -2.0, 0.25, -3.0, 1);
    let with = |k: usize, bits: u64| {
        let mut particle = good;
        particle[k] = bits;
        particle
    };
    let mut all = vec![
        [0; 5],
        of(-0.0, FARTHEST, f64::MAX, f64::MIN, 3),
        of(-FARTHEST, least, -least, -0.0, 2),
        [0x0102_0304_0506_0708, 0x8172_6354_4536_2718, 0x1a2b_3c4d_5e6f_7081, 0xbaba_1122_3344_5566, 0],
        good,
    ];
    all.extend([with(4, 4), with(4, 1 << 32 | 1), with(4, SIGN)]);
    all.extend([with(0, far + 1), with(1, SIGN | (far + 1)), with(0, INFINITE), with(1, INFINITE | 1)]);
    all.extend([with(2, INFINITE), with(3, SIGN | INFINITE), with(2, INFINITE | SIGN | 0xbad), with(3, u64::MAX)]);
    all.push([0, far + 1, 0, INFINITE, 8]);
    all.push([INFINITE, 0, INFINITE, 0, 0]);
    all
}

/// As many as are taken, one fewer and one more, all sound or the last one bad, with an output or a list that is too short by one, as long, or longer by one; sheets with bytes left over, too.
fn limits() -> impl Iterator<Item = Case> {
    let all = small();
    let (sound, bad) = (all[..5].to_vec(), all[5..].to_vec());
    (MOST - 1..=MOST + 1).flat_map(move |n| {
        let list: Vec<Words> = (0..n).map(|k| sound[k % 5]).collect();
        let mut lists = vec![list.clone()];
        for &last in &bad {
            lists.push([&list[..n - 1], &[last]].concat());
        }
        lists.into_iter().flat_map(|list| {
            let n = list.len();
            let sheet: Vec<u8> = list.iter().flat_map(record).collect();
            let longer = [1, 39].map(|more| Case::Read([&sheet[..], &vec![0; more]].concat(), n));
            let reads = (n - 1..=n + 1).map(|places| Case::Read(sheet.clone(), places)).collect::<Vec<_>>();
            let writes = (RECORD * n - 1..=RECORD * n + 1).map(move |room| Case::Write(list.clone(), room));
            writes.chain(reads).chain(longer)
        })
    })
}

/// Every list of at most two of these particles: written into outputs of every length up to three bytes more than they take, and, cut or lengthened to every number of bytes from none to a record
/// more, read into lists of every length up to two more places. Beside these are lists at the limit.
fn every() -> impl Iterator<Item = Case> {
    let all = small();
    let pairs = all.iter().flat_map(|&a| all.iter().map(move |&b| vec![a, b]));
    let lists: Vec<Vec<Words>> = [Vec::new()].into_iter().chain(all.iter().map(|&a| vec![a])).chain(pairs).collect();
    let small = lists.into_iter().flat_map(|list| {
        let n = list.len();
        let sheet: Vec<u8> = list.iter().flat_map(record).chain([0; RECORD]).collect();
        let reads = (0..=sheet.len()).flat_map(move |bytes| {
            let sheet = sheet[..bytes].to_vec();
            (0..=n + 2).map(move |places| Case::Read(sheet.clone(), places))
        });
        (0..=RECORD * n + 3).map(move |room| Case::Write(list.clone(), room)).chain(reads)
    });
    small.chain(limits())
}

// ---- random cases, the same for a seed on every machine

impl Random {
    /// The bits of any number that is none of those that are refused by this test.
    fn sound(&mut self, is_sound: fn(u64) -> bool) -> u64 {
        loop {
            let bits = self.next();
            if is_sound(bits) {
                return bits;
            }
        }
    }

    /// The bits of any coordinate; at times one at or beside an end, a zero, or one of the least.
    pub fn coordinate(&mut self) -> u64 {
        let far = FARTHEST.to_bits();
        let bits = match self.below(6) {
            0 => far - self.below(3) as u64,
            1 => self.below(3) as u64,
            2 => (self.below(2000) as f64 * 0.25).to_bits(),
            _ => self.sound(is_coordinate),
        };
        bits ^ (self.below(2) as u64) << 63
    }

    /// The bits of any velocity; at times one of the greatest or of the least.
    pub fn velocity(&mut self) -> u64 {
        let bits = match self.below(6) {
            0 => INFINITE - 1 - self.below(3) as u64,
            1 => self.below(3) as u64,
            2 => (self.below(2000) as f64 * 0.25).to_bits(),
            _ => self.sound(|bits| f64::from_bits(bits).is_finite()),
        };
        bits ^ (self.below(2) as u64) << 63
    }

    /// Flags that there are not; at times their lower part is one that there is.
    fn no_flags(&mut self) -> u64 {
        match self.below(3) {
            0 => self.below(4) as u64 | 1 << self.pick(&[2, 2, 3, 7, 8, 16, 31, 32, 33, 63]),
            1 => self.next().max(KNOWN + 1),
            _ => self.pick(&[4, 4, 5, u64::MAX, SIGN]),
        }
    }

    /// The bits of a NaN of any payload, or infinite.
    fn no_number(&mut self) -> u64 {
        let payload = self.next() >> self.pick(&[12, 12, 60, 63]);
        let bits = INFINITE | self.pick(&[0, payload, payload, 1, 1 << 51]);
        bits ^ (self.below(2) as u64) << 63
    }

    /// Beyond 2^40 by the least step or by far, or no number.
    fn no_coordinate(&mut self) -> u64 {
        let far = FARTHEST.to_bits();
        let bits = match self.below(4) {
            0 => far + 1 + self.below(3) as u64,
            1 => (FARTHEST * self.pick(&[1.5, 2.0, 1e9, 1e290])).to_bits(),
            _ => self.no_number(),
        };
        bits ^ (self.below(2) as u64) << 63
    }

    fn particle(&mut self) -> Words {
        [self.coordinate(), self.coordinate(), self.velocity(), self.velocity(), self.below(4) as u64]
    }

    /// What a list holds before: any bits, or a particle.
    fn rubbish(&mut self) -> Words {
        if self.once_in(2) {
            self.particle()
        } else {
            [self.next(), self.no_number(), self.no_coordinate(), self.next(), self.next()]
        }
    }

    /// One more or one fewer, a record more or fewer, none, or any.
    fn other_length(&mut self, length: usize) -> usize {
        match self.below(8) {
            0 | 1 => length + 1,
            2 | 3 => length.saturating_sub(1),
            4 => length.saturating_sub(RECORD),
            5 => length + self.below(RECORD),
            6 => 0,
            _ => self.below(2 * length + 2),
        }
    }
}

/// A fault in a particle, or in two or three of its parts.
pub fn spoil(r: &mut Random, particle: &mut Words) {
    for _ in 0..r.pick(&[1, 1, 1, 2, 3]) {
        match r.below(5) {
            0 => particle[4] = r.no_flags(),
            1 | 2 => particle[r.below(2)] = r.no_coordinate(),
            _ => particle[2 + r.below(2)] = r.no_number(),
        }
    }
}

/// How many particles the list of this number has: mostly a few, of 2,000 lists once as many as are taken and once more than that.
fn count(r: &mut Random, number: usize, max: usize) -> usize {
    match (number % 2000, r.below(40)) {
        (1000, _) => MOST,
        (0, _) => MOST + r.pick(&[1, 1, 1, 2, 100, MOST]),
        (_, 0) => 0,
        (_, 1..=11) => r.below(max + 1),
        _ => (1 + r.below(8)).min(max),
    }
}

/// Bytes that aren't the records of the list: some changed, any, some more or fewer at the end, the first ones left out.
fn spoiled(r: &mut Random, mut sheet: Vec<u8>) -> Vec<u8> {
    let n = sheet.len();
    match r.below(6) {
        0 | 1 if n > 0 => {
            for _ in 0..r.pick(&[1, 1, 2, 10]) {
                sheet[r.below(n)] = r.next() as u8;
            }
        }
        2 if n > 0 => sheet = sheet.split_off(r.below(n.min(2 * RECORD))),
        3 => sheet = (0..n).map(|_| r.next() as u8).collect(),
        _ => {
            let length = r.other_length(n);
            sheet.resize_with(length, || r.next() as u8);
        }
    }
    sheet
}

/// A list, written, and its bytes or what was made of them, read.
fn case(r: &mut Random, number: usize, max: usize) -> [Case; 2] {
    let n = count(r, number, max);
    let mut list: Vec<Words> = (0..n).map(|_| r.particle()).collect();
    if n > 0 && r.once_in(3) {
        for _ in 0..r.pick(&[1, 1, 1, 2, 5]) {
            let at = r.below(n);
            spoil(r, &mut list[at]);
        }
    }
    let more = r.pick(&[1, 1, 1, 2, 3, 50]);
    let other = if n > MOST { 2 } else { 5 };
    let room = if r.once_in(other) { r.other_length(RECORD * n) } else { RECORD * n + r.below(more) };
    let bytes: Vec<u8> = list.iter().flat_map(record).collect();
    let sheet = if r.once_in(other) { spoiled(r, bytes) } else { bytes };
    let records = sheet.len() / RECORD;
    let places = if r.once_in(other) { r.other_length(records) } else { records + r.below(more) };
    [Case::Write(list, room), Case::Read(sheet, places)]
}

/// `every`, or `SEED COUNT MAX`; whether nothing differs, and none for other words.
pub fn run(words: &[&str]) -> Option<bool> {
    match *words {
        ["every"] => Some(hold(every())),
        _ => crate::random(words, case).map(|all| hold(all.flatten())),
    }
}
