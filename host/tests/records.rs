//! Sheets written and read through the archive: document 02, R-1, worked by hand, refusals, and every lent byte.
mod by_hand;
mod fence;

use by_hand::laid;
use fence::Fenced;
use talemiku::{read_particles_of, read_sheet, write_sheet, written_sheet_of, Particle, Refusal, RECORD_BYTES};

const LIMIT: f64 = 1_099_511_627_776.0; // 2^40
const SPARE: u8 = 0xa5;
const FENCE: Particle = Particle { x: 1e300, y: -1e300, vx: 3.5, vy: -3.5, flags: 77 };
/// What a list holds before: no record is like it, and its NaN has a payload.
const BEFORE: Particle = Particle { x: -7.0, y: f64::INFINITY, vx: 1e-300, vy: f64::NAN, flags: 1 << 40 };

/// The words of particles; of a NaN the payload is left out, of which nothing is said.
fn words(particles: &[Particle]) -> Vec<[u64; 5]> {
    let bits = |x: f64| if x.is_nan() { f64::NAN.to_bits() } else { x.to_bits() };
    particles.iter().map(|p| [bits(p.x), bits(p.y), bits(p.vx), bits(p.vy), p.flags]).collect()
}

/// Writes with room for so many bytes, which hold `SPARE` before; what is behind the records stays, a refusal writes nothing. The particles are as they were.
fn written(particles: &[Particle], room: usize) -> Result<Vec<u8>, Refusal> {
    let mut lent = Fenced::new(particles, FENCE);
    let mut sheet = Fenced::new(&vec![SPARE; room], !SPARE);
    let answer = write_sheet(lent.part(), sheet.part());
    assert_eq!(words(lent.part()), words(particles), "particles after {answer:?}");
    assert!(lent.now().is_some(), "beside the particles");
    let now = sheet.now().expect("beside the sheet");
    let bytes = answer.unwrap_or(0);
    assert!(now[bytes..].iter().all(|&byte| byte == SPARE), "the rest of the sheet after {answer:?}");
    answer.map(|bytes| now[..bytes].to_vec())
}

/// Reads into so many places, which hold `BEFORE`; what is behind the records' stays, a refusal changes nothing. The sheet is as it was.
fn read(sheet: &[u8], places: usize) -> Result<Vec<Particle>, Refusal> {
    let before = vec![BEFORE; places];
    let mut lent = Fenced::new(sheet, SPARE);
    let mut list = Fenced::new(&before, FENCE);
    let answer = read_sheet(lent.part(), list.part());
    assert_eq!(lent.now(), Some(sheet), "the sheet after {answer:?}");
    let now = list.now().expect("beside the list").to_vec();
    let particles = answer.unwrap_or(0);
    assert_eq!(words(&now[particles..]), words(&before[particles..]), "the rest of the list after {answer:?}");
    answer.map(|particles| now[..particles].to_vec())
}

/// Three labels, and their records: a sign, an exponent and some first digits of a number are in the last bytes of its eight.
fn three() -> ([Particle; 3], Vec<u8>) {
    let labels = [
        Particle { x: 1.0, y: -2.0, vx: 0.5, vy: -0.0, flags: 0 },
        Particle { x: LIMIT, y: 0.0, vx: f64::MAX, vy: f64::MIN, flags: 3 },
        Particle { x: f64::from_bits(1), y: f64::from_bits(0x8102_0304_0506_0708), vx: 3.0, vy: 1.5, flags: 2 },
    ];
    let bytes: [[u8; 8]; 15] = [
        [0, 0, 0, 0, 0, 0, 0xf0, 0x3f],
        [0, 0, 0, 0, 0, 0, 0, 0xc0],
        [0, 0, 0, 0, 0, 0, 0xe0, 0x3f],
        [0, 0, 0, 0, 0, 0, 0, 0x80],
        [0; 8],
        [0, 0, 0, 0, 0, 0, 0x70, 0x42],
        [0; 8],
        [0xff, 0xff, 0xff, 0xff, 0xff, 0xff, 0xef, 0x7f],
        [0xff, 0xff, 0xff, 0xff, 0xff, 0xff, 0xef, 0xff],
        [3, 0, 0, 0, 0, 0, 0, 0],
        [1, 0, 0, 0, 0, 0, 0, 0],
        [8, 7, 6, 5, 4, 3, 2, 0x81],
        [0, 0, 0, 0, 0, 0, 8, 0x40],
        [0, 0, 0, 0, 0, 0, 0xf8, 0x3f],
        [2, 0, 0, 0, 0, 0, 0, 0],
    ];
    (labels, bytes.concat())
}

#[test]
fn three_labels_byte_for_byte() {
    let (labels, bytes) = three();
    assert_eq!(laid(&labels), bytes);
    for more in [0, 1, 39, 40, 41] {
        assert_eq!(written(&labels, 120 + more), Ok(bytes.clone()));
    }
    for more in 0..3 {
        assert_eq!(read(&bytes, 3 + more).map(|list| words(&list)), Ok(words(&labels)));
    }
    assert_eq!(written_sheet_of(&labels), Ok(bytes.clone()));
    assert_eq!(read_particles_of(&bytes).map(|list| words(&list)), Ok(words(&labels)));
}

#[test]
fn none() {
    for room in [0, 1, 40] {
        assert_eq!(written(&[], room), Ok(vec![]));
        assert_eq!(read(&[], room), Ok(vec![]));
    }
    assert_eq!((written_sheet_of(&[]), read_particles_of(&[])), (Ok(vec![]), Ok(vec![])));
}

#[test]
fn an_output_that_is_too_short() {
    let (labels, bytes) = three();
    for room in [0, 1, 79, 80, 81, 119] {
        assert_eq!(written(&labels, room), Err(Refusal::Lengths));
    }
    for places in 0..3 {
        assert_eq!(read(&bytes, places), Err(Refusal::Lengths));
    }
}

/// So many labels, no two alike.
fn many(count: u32) -> Vec<Particle> {
    let label = |k| Particle { vx: f64::from(k) / 3.0, flags: u64::from(k % 4), ..Particle::at(f64::from(k), -f64::from(k)) };
    (0..count).map(label).collect()
}

#[test]
fn as_many_as_are_taken() {
    let (most, more) = (many(4096), many(4097));
    let bytes = laid(&most);
    assert_eq!(written(&most, 163_840), Ok(bytes.clone()));
    assert_eq!(written(&most, 163_839), Err(Refusal::Lengths));
    assert_eq!(read(&bytes, 4096), Ok(most.clone()));
    assert_eq!(read(&bytes, 4095), Err(Refusal::Lengths));
    // 1 comes before 2
    for room in [0, 163_840, 163_879, 163_880, 163_881] {
        assert_eq!(written(&more, room), Err(Refusal::TooMany));
    }
    for places in [0, 4096, 4097, 4098] {
        assert_eq!(read(&laid(&more), places), Err(Refusal::TooMany));
    }
    assert_eq!((written_sheet_of(&more), read_particles_of(&laid(&more))), (Err(Refusal::TooMany), Err(Refusal::TooMany)));
}

/// Labels that are bad, and how each is refused at a place. The first two are bad in several ways: flags come before coordinates, and those before velocities.
fn faults(at: usize) -> Vec<(Particle, Refusal)> {
    let good = Particle { x: 1.0, y: 2.0, vx: 3.0, vy: 4.0, flags: 1 };
    let (flag, place, velocity) = (Refusal::Record { record: at }, Refusal::Coordinate { particle: at }, Refusal::Number { place: at });
    let mut all = vec![
        (Particle { flags: 4, x: f64::NAN, vy: f64::NAN, ..good }, flag),
        (Particle { y: f64::INFINITY, vx: f64::NAN, ..good }, place),
    ];
    all.extend([4, 5, 1 << 8, 1 << 32, 1 << 63 | 1, u64::MAX].map(|flags| (Particle { flags, ..good }, flag)));
    let far = f64::from_bits(LIMIT.to_bits() + 1);
    for x in [f64::NAN, f64::INFINITY, far, f64::from_bits(0x7ff0_0000_0000_0bad)].iter().flat_map(|&x| [x, -x]) {
        all.extend([(Particle { x, ..good }, place), (Particle { y: x, ..good }, place)]);
    }
    for v in [f64::NAN, f64::INFINITY, f64::from_bits(0x7ff0_0000_0000_0001)].iter().flat_map(|&v| [v, -v]) {
        all.extend([(Particle { vx: v, ..good }, velocity), (Particle { vy: v, ..good }, velocity)]);
    }
    all
}

#[test]
fn the_first_bad_particle() {
    let good = many(5);
    for at in 0..good.len() {
        for (bad, refusal) in faults(at) {
            let mut list = good.clone();
            list[at] = bad;
            // what is wrong further on comes later, whatever it is
            for later in at + 1..list.len() {
                list[later] = Particle { flags: u64::MAX, x: f64::NAN, vx: f64::NAN, ..good[later] };
            }
            assert_eq!(written(&list, 200), Err(refusal));
            assert_eq!(written(&list, 240), Err(refusal));
            assert_eq!(read(&laid(&list), 5), Err(refusal));
            assert_eq!(read(&laid(&list), 7), Err(refusal));
        }
    }
}

#[test]
fn what_is_lent_in_its_order() {
    let (bad, _) = faults(0)[0];
    // 1, then 2, then the particles
    assert_eq!(written(&[bad; 4097], 0), Err(Refusal::TooMany));
    assert_eq!(written(&[bad; 3], 119), Err(Refusal::Lengths));
    // 10 for the length, then 1, then 2, then the records
    for odd in [1, 20, 39] {
        let long = vec![0xff; 4097 * RECORD_BYTES + odd];
        assert_eq!(read(&long, 0), Err(Refusal::Record { record: 0 }));
        assert_eq!(read(&long[..odd], 0), Err(Refusal::Record { record: 0 }));
        assert_eq!(read(&long[..80 + odd], 3), Err(Refusal::Record { record: 0 }));
    }
    assert_eq!(read(&vec![0xff; 4097 * RECORD_BYTES], 0), Err(Refusal::TooMany));
    assert_eq!(read(&[0xff; 120], 2), Err(Refusal::Lengths));
    assert_eq!(read(&[0xff; 120], 3), Err(Refusal::Record { record: 0 }));
}

#[test]
fn both_ways_round() {
    let least = f64::from_bits(1);
    let numbers = [0.0, 1.0 / 3.0, f64::MIN_POSITIVE, f64::MIN_POSITIVE - least, least, LIMIT, LIMIT - 1.0 / 8192.0, 1e-300];
    let signed: Vec<f64> = numbers.iter().flat_map(|&x| [x, -x]).collect();
    let velocities = [f64::MAX, f64::MIN, 1e300, -1e300, 0.0, -0.0, least, -least];
    let mut list = Vec::new();
    for (k, &x) in signed.iter().enumerate() {
        for (j, &v) in velocities.iter().enumerate() {
            list.push(Particle { x, y: signed[(k + j) % signed.len()], vx: v, vy: velocities[(j + k) % 8], flags: (k + j) as u64 % 4 });
        }
    }
    let sheet = written(&list, list.len() * RECORD_BYTES + 7).expect("particles in range");
    assert_eq!(sheet, laid(&list));
    let again = read(&sheet, list.len() + 2).expect("what was written");
    assert_eq!(words(&again), words(&list));
    assert_eq!(written(&again, sheet.len()), Ok(sheet));
}
