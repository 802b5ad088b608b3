//! The stored sample of the Rust's answers, which crates/replay runs through the calls, here through the entries: each answer, and every lent buffer after its call.
//! beside/pack says how the sample is laid out, and the files of crates/replay_answers and crates/replay what the parts of a case are.
use std::convert::TryInto;
use std::fs;
use std::path::Path;
use talemiku::raw;

const KINDS: [&str; 8] = ["floors", "roots", "trees", "Link", "ManyBody", "Collide", "ticks", "steps"];

fn word(bytes: &[u8]) -> u64 {
    u64::from_le_bytes(bytes.try_into().unwrap())
}

fn words(bytes: &[u8]) -> Vec<u64> {
    bytes.chunks(8).map(word).collect()
}

/// What `bytes` begins with, as long as its first word says, and the rest.
fn cut(bytes: &[u8]) -> (&[u8], &[u8]) {
    let length = word(&bytes[..8]) as usize;
    bytes[8..].split_at(length)
}

/// As many items as are asked for: those that are given repeat, and none stands for zeros.
fn repeated<T: Copy + Default>(items: &[T], length: usize) -> Vec<T> {
    (0..length).map(|i| if items.is_empty() { T::default() } else { items[i % items.len()] }).collect()
}

/// A case's kind and its parts, of which the first has the number 1.
struct Case<'a> {
    kind: usize,
    parts: Vec<&'a [u8]>,
}

impl<'a> Case<'a> {
    fn of(bytes: &'a [u8]) -> Case<'a> {
        let (kind, mut rest) = bytes.split_at(8);
        let mut parts = Vec::new();
        while !rest.is_empty() {
            let (part, more) = cut(rest);
            parts.push(part);
            rest = more;
        }
        Case { kind: word(kind) as usize, parts }
    }

    fn argument(&self, i: usize) -> u64 {
        words(self.parts[1])[i]
    }

    fn number(&self, i: usize) -> f64 {
        f64::from_bits(self.argument(i))
    }

    /// A list that is lent, by the number of its items and what they are.
    fn bytes(&self, part: usize) -> Vec<u8> {
        let (length, items) = self.parts[part - 1].split_at(8);
        repeated(items, word(length) as usize)
    }

    fn words(&self, part: usize) -> Vec<u64> {
        let (length, items) = self.parts[part - 1].split_at(8);
        repeated(&words(items), word(length) as usize)
    }

    fn halves(&self, part: usize) -> Vec<u32> {
        self.words(part).into_iter().map(|w| w as u32).collect()
    }

    fn numbers(&self, part: usize) -> Vec<f64> {
        self.words(part).into_iter().map(f64::from_bits).collect()
    }

    /// Whether a list is, after the call, what the part says.
    fn leaves_bytes(&self, part: usize, list: &[u8]) -> bool {
        list == repeated(self.parts[part - 1], list.len())
    }

    fn leaves_words(&self, part: usize, list: &[u64]) -> bool {
        list == repeated(&words(self.parts[part - 1]), list.len())
    }

    fn leaves_halves(&self, part: usize, list: &[u32]) -> bool {
        self.leaves_words(part, &list.iter().map(|&h| u64::from(h)).collect::<Vec<_>>())
    }

    fn answers(&self, answer: &[u64]) -> bool {
        words(self.parts[0]) == answer
    }
}

fn floor_is_right(case: &Case) -> bool {
    let a = raw::floor(case.number(0));
    case.answers(&[a.refusal.number, a.refusal.place, (a.value as f64).to_bits()])
}

fn root_is_right(case: &Case) -> bool {
    case.answers(&[raw::root(case.argument(0))])
}

fn tree_is_right(case: &Case) -> bool {
    let (mut rows, mut chains, mut work) = (case.halves(3), case.halves(5), case.words(7));
    let a = raw::tree(&case.bytes(2), &mut rows, &mut chains, &mut work);
    let (r, e) = (a.refusal, a.extent);
    let answer = [r.number, r.place, a.nodes, e.x0.to_bits(), e.y0.to_bits(), e.x1.to_bits(), e.y1.to_bits()];
    case.answers(&answer) && case.leaves_halves(4, &rows) && case.leaves_halves(6, &chains) && case.leaves_words(8, &work)
}

fn force_is_right(case: &Case) -> bool {
    let (places, draws, strengths) = (case.numbers(3), case.numbers(4), case.numbers(10));
    let (mut buffer, mut work) = (case.bytes(5), case.words(7));
    let (start, x, iterations) = (case.argument(0) as usize, case.number(1), case.argument(2) as usize);
    let a = match case.kind {
        3 => raw::link(&places, &mut buffer, start, &case.halves(9), &strengths, &case.numbers(11), iterations, x, &draws, &mut work),
        4 => raw::many_body(&places, &mut buffer, start, &strengths, x, &draws, &mut work),
        _ => raw::collide(&places, &mut buffer, start, &strengths, x, iterations, &draws, &mut work),
    };
    case.answers(&[a.refusal.number, a.refusal.place, a.visits, a.draws]) && case.leaves_bytes(6, &buffer) && case.leaves_words(8, &work)
}

fn sheet_is_right(case: &Case) -> bool {
    let (numbers, links, draws) = (case.numbers(6), case.halves(7), case.numbers(8));
    let (mut sheet, mut work, mut alpha) = (case.bytes(3), case.words(9), case.argument(0));
    let forces: [u64; 56] = case.words(5).try_into().unwrap();
    let (target, alpha_decay, velocity_decay) = (case.number(1), case.number(2), case.number(3));
    let answer = if case.kind == 6 {
        let a = raw::tick(&mut sheet, &mut alpha, &forces, &numbers, &links, &draws, target, alpha_decay, velocity_decay, &mut work);
        [a.refusal.number, a.refusal.place, 0, 0, a.visits, a.draws]
    } else {
        let a = raw::step(
            &mut sheet,
            &mut alpha,
            &forces,
            &numbers,
            &links,
            &draws,
            target,
            alpha_decay,
            velocity_decay,
            case.number(4),
            case.argument(5),
            &mut work,
        );
        [a.refusal.number, a.refusal.place, a.ticks, a.finished, a.visits, a.draws]
    };
    case.answers(&answer) && alpha == case.argument(6) && case.leaves_bytes(4, &sheet) && case.leaves_words(10, &work)
}

fn is_right(case: &Case) -> bool {
    match case.kind {
        0 => floor_is_right(case),
        1 => root_is_right(case),
        2 => tree_is_right(case),
        3..=5 => force_is_right(case),
        _ => sheet_is_right(case),
    }
}

/// The program's own count, which its file `stdout` holds, comes out of the entries too.
#[test]
fn the_sample_through_the_entries() {
    let replay = Path::new(env!("CARGO_MANIFEST_DIR")).join("../crates/replay");
    let sample = fs::read(replay.join("stdin")).unwrap();
    let (mut right, mut all) = ([0; KINDS.len()], [0; KINDS.len()]);
    let mut rest = &sample[..];
    while !rest.is_empty() {
        let (bytes, more) = cut(rest);
        let case = Case::of(bytes);
        all[case.kind] += 1;
        right[case.kind] += is_right(&case) as usize;
        rest = more;
    }
    let told: String = (0..KINDS.len()).map(|k| format!("{} {} of {}\n", KINDS[k], right[k], all[k])).collect();
    assert_eq!(told, fs::read_to_string(replay.join("stdout")).unwrap());
    assert_eq!(right, all);
}
