//! Random hard cases, the same for a seed on every machine.

use crate::case::{Case, Force, Record, Tick};
use crate::random::Random;

const LIMIT: f64 = 1_099_511_627_776.0; // 2^40

// ---- the generator

impl Random {
    /// A whole number from -n to n.
    fn whole(&mut self, n: usize) -> f64 {
        self.below(2 * n + 1) as f64 - n as f64
    }

    /// From 0 to 1, all 53 digits random.
    fn unit(&mut self) -> f64 {
        (self.next() >> 11) as f64 * two_to(-53)
    }

    fn signed_unit(&mut self) -> f64 {
        self.unit() * 2.0 - 1.0
    }

    /// Random digits under a random power of two.
    fn spread(&mut self, least: i64, greatest: i64) -> f64 {
        let exponent = least + self.below((greatest - least + 1) as usize) as i64;
        self.signed_unit() * two_to(exponent)
    }
}

/// 2^e, for e from -1074 to 1023.
fn two_to(e: i64) -> f64 {
    f64::from_bits(if e < -1022 { 1 << (e + 1074) } else { ((e + 1023) as u64) << 52 })
}

/// The next value away from zero.
fn beyond(x: f64) -> f64 {
    f64::from_bits(x.to_bits() + 1)
}

// ---- places

type Point = [f64; 2];

/// Points that 01 and the traps name.
fn named_points(r: &mut Random) -> Vec<Point> {
    let (h64, h65, h53) = (two_to(-64), two_to(-65), two_to(-53));
    match r.below(12) {
        0 => vec![[0.0, 0.0], [h64, 0.0], [1.0, 1.0]],
        1 => vec![[1.0, 0.0], [1.0, h53]],
        2 => vec![[LIMIT, -LIMIT], [LIMIT, LIMIT], [-LIMIT, 0.0]],
        3 => vec![[0.0, 0.0], [h64, 0.0]],
        4 => vec![[0.0, 0.0], [0.0, h65]],
        5 => vec![[0.0, 0.0], [1.0, 1.0], [-1.0, 0.0]],
        6 => vec![[0.0, 0.0], [-0.0, 0.0], [0.0, -0.0]],
        7 => vec![[0.75, 0.75], [1.25, 1.25]],
        8 => vec![[0.0, 0.0], [3.0, 3.0], [0.0, 0.0]],
        9 => vec![[-0.5, 0.0], [-0.0, -0.5]],
        10 => vec![[0.0, 0.0], [h64, h64], [-1.0, -1.0], [-3.0, 0.0]],
        _ => comb(if r.once_in(3) { 64 } else { 1 + r.below(12) }),
    }
}

/// A point whose cell, seen from (0,0), lies at the distance where far begins, or a few bits beside.
fn edge_of_far(r: &mut Random) -> Vec<Point> {
    let side = two_to(r.below(8) as i64);
    let y = if r.once_in(3) { 0.0 } else { r.unit() * side };
    let x = (side * side / (0.9 * 0.9) - y * y).sqrt();
    vec![[0.0, 0.0], [f64::from_bits(x.to_bits() + r.below(7) as u64 - 3), y]]
}

/// (0,0) and the other corners of the squares of side 1/2, 1/4 and so on: a walk has three waiting at every level.
fn comb(levels: usize) -> Vec<Point> {
    let mut points = vec![[0.0, 0.0]];
    for level in 1..=levels {
        let h = two_to(-(level as i64));
        points.extend([[h, 0.0], [0.0, h], [h, h]]);
    }
    points
}

/// One coordinate in a style.
fn coordinate(r: &mut Random, style: usize) -> f64 {
    match style {
        0 => r.whole(3),
        1 => r.whole(16) / 8.0,
        2 => r.whole(2) * two_to(r.pick(&[-52, -53, -60, -62, -63, -64, -65])),
        3 => r.pick(&[LIMIT, -LIMIT, LIMIT - 1.0, 1.0 - LIMIT, LIMIT - two_to(-12), LIMIT / 2.0, -LIMIT / 2.0, 0.0]),
        4 => r.pick(&[0.0, 1e6, -1e9, LIMIT / 2.0]) + r.whole(4),
        5 => r.pick(&[0.0, -0.0, two_to(-1074), -two_to(-1074), two_to(-1022), 1.0, -1.0, two_to(-64)]),
        6 => r.spread(-40, 40),
        7 => r.pick(&[1.0, -1.0]) * two_to(r.below(40) as i64),
        8 => r.pick(&[0.0, 1.0]),
        9 => 1.0 + r.whole(2) * r.pick(&[two_to(-52), two_to(-53), 0.0]),
        10 => r.signed_unit() * 30.0,
        11 => r.signed_unit(),
        12 => r.pick(&[0.0, -0.0]),
        _ => r.whole(3) + r.pick(&[0.0, 0.0, two_to(-30), -0.5]),
    }
}

fn grid(n: usize, side: f64) -> Vec<Point> {
    let wide = (1..).find(|w| w * w >= n).unwrap_or(1);
    (0..n).map(|i| [(i % wide) as f64 * side, (i / wide) as f64 * side]).collect()
}

/// Points that move out in all four directions, so that every cover happens.
fn outward(r: &mut Random, n: usize) -> Vec<Point> {
    let mut reach = 1.0;
    (0..n)
        .map(|_| {
            reach = if reach < LIMIT / 16.0 { reach * r.pick(&[1.0, 2.0, 4.0]) } else { 1.0 };
            [r.whole(1) * reach, r.whole(1) * reach]
        })
        .collect()
}

/// Three places at most, so that the chains are long.
fn few(r: &mut Random, count: usize) -> Vec<Point> {
    let style = r.below(14);
    let some: Vec<Point> = (0..3).map(|_| [coordinate(r, style), coordinate(r, style)]).collect();
    (0..count).map(|_| r.pick(&some)).collect()
}

fn places(r: &mut Random, max: usize) -> Vec<Point> {
    let n = count(r, max);
    match r.below(24) {
        0 => return named_points(r),
        1 => return grid(n, r.pick(&[1.0, 0.5, 3.0])),
        2 => return outward(r, n),
        3 => return few(r, max.min(2 * n)),
        4 => return edge_of_far(r),
        5 => return vec![[r.unit() * r.unit(), 0.5], [2.5, 0.5], [3.5, r.unit()]],
        _ => {}
    }
    let styles = [r.below(14), r.below(14)];
    let mixed = r.once_in(2);
    let mut points: Vec<Point> = Vec::new();
    for i in 0..n {
        let style = styles[r.below(2) * mixed as usize];
        let fresh = [coordinate(r, style), coordinate(r, style)];
        let again = i > 0 && r.once_in(6);
        points.push(if again { points[r.below(i)] } else { fresh });
    }
    points
}

/// Mostly 1 to 6 particles.
fn count(r: &mut Random, max: usize) -> usize {
    match r.below(40) {
        0 => 0,
        1 | 2 => r.below(max + 1),
        _ => (1 + r.below(6)).min(max),
    }
}

// ---- particles

fn velocity(r: &mut Random) -> f64 {
    match r.below(24) {
        0..=7 => 0.0,
        8..=10 => -0.0,
        11..=14 => r.whole(4) / 2.0,
        15..=19 => r.signed_unit() * 10.0,
        20 => r.spread(-30, 32),
        21 => r.pick(&[2147483647.0, -2147483648.0, 2147483648.5, -2147483650.0, 1e10]),
        22 => r.pick(&[two_to(-1074), -two_to(-1022), two_to(-537)]),
        _ => {
            if r.once_in(3) {
                r.pick(&[1e308, -1e308, f64::MAX, -f64::MAX])
            } else {
                1.0
            }
        }
    }
}

fn particles(r: &mut Random, max: usize) -> Vec<Record> {
    let points = places(r, max);
    let still = r.once_in(3);
    let free = r.once_in(2);
    let mut list: Vec<Record> = Vec::new();
    for &[x, y] in &points {
        let (mut vx, mut vy) = if still { (0.0, 0.0) } else { (velocity(r), velocity(r)) };
        // a velocity that closes the gap to another particle, so that a distance is zero
        if !still && r.once_in(5) {
            let other = points[r.below(points.len())];
            vx = other[0] - x;
            if r.once_in(2) {
                vy = other[1] - y;
            }
        }
        list.push(Record { x, y, vx, vy, flags: if free { 0 } else { r.below(4) as u64 } });
    }
    list
}

fn slots(r: &mut Random, n: usize) -> usize {
    match r.below(16) {
        0 => r.below(2 * n + 2),
        1 => r.pick(&[0, 1, 64, 65, 66]),
        _ => 66 * n + 66,
    }
}

// ---- lists and settings

fn strength(r: &mut Random) -> f64 {
    match r.below(16) {
        0..=4 => -30.0,
        5 => 0.0,
        6 => -0.0,
        7 | 8 => r.whole(4),
        9 => r.pick(&[LIMIT, -LIMIT, two_to(-1074), -two_to(-1022), 30.0]),
        10 => r.spread(-60, 39),
        _ => r.signed_unit() * 50.0,
    }
}

fn radius(r: &mut Random) -> f64 {
    match r.below(16) {
        0 => 0.0,
        1 => -0.0,
        2..=5 => 1.0,
        6 | 7 => r.below(9) as f64 / 2.0,
        8 => r.pick(&[LIMIT, 1e6, two_to(-1074), two_to(-40)]),
        _ => r.unit() * 5.0,
    }
}

fn list(r: &mut Random, n: usize, one: fn(&mut Random) -> f64) -> Vec<f64> {
    let same = if r.once_in(3) { Some(one(r)) } else { None };
    (0..n).map(|_| same.unwrap_or_else(|| one(r))).collect()
}

fn draw(r: &mut Random) -> f64 {
    match r.below(24) {
        0 => 0.0,
        1 => r.pick(&[1.0, -1.0]),
        2 => r.pick(&[two_to(-538), -two_to(-1074), -0.0]),
        3..=5 => r.whole(8) / 8.0,
        6..=15 => r.signed_unit() * two_to(-20),
        _ => r.signed_unit(),
    }
}

fn draws(r: &mut Random, wanted: usize) -> Vec<f64> {
    let count = match r.below(12) {
        0 => 0,
        1 => r.below(4),
        2 => r.below(wanted + 1),
        _ => wanted,
    };
    (0..count).map(|_| draw(r)).collect()
}

fn alpha(r: &mut Random) -> f64 {
    match r.below(12) {
        0..=4 => 1.0,
        5 => r.pick(&[0.0, -0.0, -1.0, 2.0]),
        6 => r.pick(&[LIMIT, -LIMIT, two_to(-1074), two_to(-500)]),
        _ => r.unit(),
    }
}

/// Decays, mostly sound ones.
fn decay(r: &mut Random) -> f64 {
    match r.below(10) {
        0 => r.pick(&[0.0, 1.0, -1.0, 2.0]),
        1 => r.pick(&[LIMIT, -LIMIT, two_to(-1074)]),
        2..=5 => 0.6,
        _ => r.unit(),
    }
}

fn setting(r: &mut Random) -> f64 {
    match r.below(8) {
        0 => r.pick(&[LIMIT, -LIMIT, 1e9, LIMIT / 2.0]),
        1..=3 => r.whole(5),
        _ => r.signed_unit() * 20.0,
    }
}

fn iterations(r: &mut Random) -> u64 {
    r.pick(&[1, 1, 1, 1, 2, 2, 3, 0, 5])
}

// ---- forces

fn many_body(r: &mut Random, n: usize) -> Force {
    let mut strengths = list(r, n, strength);
    if r.once_in(4) {
        // most of them zero, so that cells have no centre
        for s in strengths.iter_mut() {
            *s = if r.once_in(3) { *s } else { r.pick(&[0.0, -0.0]) };
        }
    }
    Force::ManyBody { strengths }
}

fn collide(r: &mut Random, particles: &[Record]) -> Force {
    let strength = if r.once_in(3) { setting(r) } else { r.pick(&[1.0, 0.5, 0.7, 0.0, -0.0]) };
    let mut radii = list(r, particles.len(), radius);
    if !particles.is_empty() && r.once_in(4) {
        reach_an_end(r, particles, &mut radii);
    }
    Force::Collide { strength, iterations: iterations(r), radii }
}

/// One particle whose reach ends where a cell begins, or a bit beside.
fn reach_an_end(r: &mut Random, particles: &[Record], radii: &mut [f64]) {
    let i = r.below(particles.len());
    let side = r.pick(&[1.0, 2.0, 2.0, 4.0]);
    let end = (particles[r.below(particles.len())].x / side).floor() * side;
    let reach = (end - particles[i].x).abs();
    if reach > 0.0 && reach < LIMIT {
        radii.fill(0.0);
        radii[i] = f64::from_bits(reach.to_bits() + r.below(3) as u64 - 1);
    }
}

fn link(r: &mut Random, n: usize) -> Force {
    let count = if n == 0 { 0 } else { r.below(2 * n + 2) };
    let mut links: Vec<(usize, usize)> = (0..count).map(|_| (r.below(n), r.below(n))).collect();
    if count > 1 && r.once_in(3) {
        links[count - 1] = links[0]; // a link twice
    }
    let strengths = if r.once_in(2) { Vec::new() } else { list(r, count, strength) };
    Force::Link { iterations: iterations(r), links, strengths, distances: list(r, count, radius) }
}

fn center(r: &mut Random) -> Force {
    Force::Center { x: setting(r), y: setting(r), strength: if r.once_in(2) { 1.0 } else { r.signed_unit() } }
}

fn any_force(r: &mut Random, particles: &[Record]) -> Force {
    let n = particles.len();
    match r.below(7) {
        0 | 1 => many_body(r, n),
        2 | 3 => collide(r, particles),
        4 | 5 => link(r, n),
        _ => center(r),
    }
}

fn eight(r: &mut Random, particles: &[Record]) -> Vec<Force> {
    let dense = r.once_in(8);
    (0..8).map(|_| if dense || r.once_in(4) { any_force(r, particles) } else { Force::Empty }).collect()
}

// ---- what is refused

fn bad_coordinate(r: &mut Random) -> f64 {
    r.pick(&[f64::NAN, f64::INFINITY, -f64::INFINITY, beyond(LIMIT), -beyond(LIMIT), 1e300])
}

fn bad_velocity(r: &mut Random) -> f64 {
    r.pick(&[f64::NAN, f64::INFINITY, -f64::INFINITY])
}

fn bad_length(r: &mut Random) -> f64 {
    r.pick(&[-1.0, -two_to(-1074), beyond(LIMIT), f64::NAN, f64::INFINITY])
}

fn bad_draw(r: &mut Random) -> f64 {
    r.pick(&[beyond(1.0), -beyond(1.0), 2.0, f64::NAN, f64::INFINITY])
}

fn spoil(r: &mut Random, list: &mut [f64], bad: fn(&mut Random) -> f64) {
    if !list.is_empty() {
        list[r.below(list.len())] = bad(r);
    }
}

fn shorten(r: &mut Random, list: &mut Vec<f64>) {
    if list.is_empty() || r.once_in(2) {
        list.push(1.0);
    } else {
        list.pop();
    }
}

fn spoil_particles(r: &mut Random, list: &mut Vec<Record>) {
    if r.once_in(80) {
        let one = Record { x: 0.0, y: 0.0, vx: 0.0, vy: 0.0, flags: 0 };
        list.resize(4097, one);
    }
    if list.is_empty() {
        return;
    }
    let i = r.below(list.len());
    match r.below(5) {
        0 => list[i].x = bad_coordinate(r),
        1 => list[i].y = bad_coordinate(r),
        2 => list[i].vx = bad_velocity(r),
        3 => list[i].vy = bad_velocity(r),
        _ => list[i].flags = r.pick(&[4, 5, 8, 1 << 32, u64::MAX]),
    }
}

fn spoil_force(r: &mut Random, force: &mut Force, n: usize) {
    match force {
        Force::Empty => *force = Force::Unknown(r.pick(&[5, 6, 9, 99, 255])),
        Force::Unknown(_) => {}
        Force::ManyBody { strengths } => match r.below(2) {
            0 => shorten(r, strengths),
            _ => spoil(r, strengths, bad_coordinate),
        },
        Force::Collide { strength, iterations, radii } => match r.below(4) {
            0 => *iterations = r.pick(&[65, 1000]),
            1 => shorten(r, radii),
            2 => spoil(r, radii, bad_length),
            _ => *strength = bad_coordinate(r),
        },
        Force::Link { iterations, links, strengths, distances } => match r.below(7) {
            0 => *iterations = r.pick(&[65, 1000]),
            1 => shorten(r, distances),
            2 => shorten(r, strengths),
            3 => spoil(r, distances, bad_length),
            4 => spoil(r, strengths, bad_coordinate),
            5 if r.once_in(20) => links.resize(8193, (0, 0)),
            _ => {
                let count = links.len();
                if count > 0 {
                    let bad = n + r.below(2);
                    let link = &mut links[r.below(count)];
                    *link = if r.once_in(2) { (bad, link.1) } else { (link.0, bad) };
                }
            }
        },
        Force::Center { x, y, strength } => {
            let bad = bad_coordinate(r);
            match r.below(3) {
                0 => *x = bad,
                1 => *y = bad,
                _ => *strength = bad,
            }
        }
    }
}

/// One number moved from the end of one slot's list to another's: the totals agree and the lists shift.
fn shift(r: &mut Random, forces: &mut [Force]) {
    let mut lists: Vec<&mut Vec<f64>> = Vec::new();
    for force in forces {
        match force {
            Force::ManyBody { strengths } => lists.push(strengths),
            Force::Collide { radii, .. } => lists.push(radii),
            Force::Link { distances, .. } => lists.push(distances),
            _ => {}
        }
    }
    if lists.len() > 1 {
        let (from, to) = (r.below(lists.len()), r.below(lists.len()));
        if let Some(number) = lists[from].pop() {
            lists[to].push(number);
        }
    }
}

fn spoil_tick(r: &mut Random, tick: &mut Tick) {
    let n = tick.particles.len();
    match r.below(10) {
        0..=2 => spoil_particles(r, &mut tick.particles),
        3..=6 => {
            let used: Vec<usize> = (0..8).filter(|&k| !matches!(tick.forces[k], Force::Empty)).collect();
            let k = if used.is_empty() || r.once_in(6) { r.below(8) } else { r.pick(&used) };
            spoil_force(r, &mut tick.forces[k], n);
        }
        7 => spoil(r, &mut tick.draws, bad_draw),
        8 => shift(r, &mut tick.forces),
        _ => {
            let bad = bad_coordinate(r);
            match r.below(4) {
                0 => tick.alpha = bad,
                1 => tick.target = bad,
                2 => tick.decay = bad,
                _ => tick.velocity_decay = bad,
            }
        }
    }
}

/// How often a case is spoilt: mostly not, and sometimes twice, so that the order of the tests shows.
fn spoils(r: &mut Random) -> usize {
    match r.below(8) {
        0 => 1,
        1 => 2,
        _ => 0,
    }
}

// ---- cases

fn number(r: &mut Random) -> f64 {
    match r.below(8) {
        0 => f64::from_bits(r.next()),
        1 => r.pick(&[0.0, -0.0, f64::INFINITY, -f64::INFINITY, f64::NAN, f64::MAX, two_to(-1074), two_to(-1022), -1.0, 0.25]),
        2 => r.pick(&[LIMIT, -LIMIT, beyond(LIMIT), -beyond(LIMIT), LIMIT - two_to(-12), -0.5, two_to(-1073), 2.0]),
        3 => r.whole(1 << 20),
        4 => f64::from_bits(r.next() >> 12), // subnormal
        5 => {
            let root = (r.next() >> 38) as f64;
            f64::from_bits((root * root).to_bits() + r.below(3) as u64 - (root > 0.0) as u64)
            // at and beside a square
        }
        _ => r.spread(-60, 42),
    }
}

fn tree(r: &mut Random, max: usize) -> Case {
    let mut particles = particles(r, max);
    let slots = slots(r, particles.len());
    for _ in 0..spoils(r) {
        spoil_particles(r, &mut particles);
    }
    Case::Tree { slots, particles }
}

fn visit(r: &mut Random, max: usize) -> Case {
    let mut particles = particles(r, max);
    let nodes = 3 * particles.len() + 1;
    let skips = (0..r.below(5)).map(|_| r.below(nodes)).collect();
    if r.once_in(30) {
        spoil_particles(r, &mut particles);
    }
    Case::Visit { particles, skips }
}

fn force(r: &mut Random, max: usize, make: fn(&mut Random, &[Record]) -> Force) -> Case {
    let mut particles = particles(r, max);
    let n = particles.len();
    let mut force = make(r, &particles);
    let mut alpha = alpha(r);
    let mut draws = draws(r, 4 * n + 8);
    let slots = slots(r, n);
    for _ in 0..spoils(r) {
        match r.below(8) {
            0..=2 => spoil_particles(r, &mut particles),
            3..=5 => spoil_force(r, &mut force, n),
            6 => spoil(r, &mut draws, bad_draw),
            _ => alpha = bad_coordinate(r),
        }
    }
    Case::Force { slots, force, alpha, particles, draws }
}

fn closing(r: &mut Random, max: usize) -> Case {
    let mut particles = particles(r, max);
    let mut decay = decay(r);
    for _ in 0..spoils(r) {
        if r.once_in(4) {
            decay = bad_coordinate(r);
        } else {
            spoil_particles(r, &mut particles);
        }
    }
    Case::Move { decay, particles }
}

fn whole_tick(r: &mut Random, max: usize, ticks: usize) -> Tick {
    let particles = particles(r, max);
    let n = particles.len();
    let mut tick = Tick {
        slots: slots(r, n),
        alpha: alpha(r),
        target: if r.once_in(3) { alpha(r) } else { 0.0 },
        decay: decay(r),
        velocity_decay: decay(r),
        forces: eight(r, &particles),
        draws: draws(r, (6 * n + 8) * ticks),
        particles,
    };
    for _ in 0..spoils(r) {
        spoil_tick(r, &mut tick);
    }
    tick
}

fn tick(r: &mut Random, max: usize) -> Case {
    Case::Tick(whole_tick(r, max, 1))
}

fn step(r: &mut Random, max: usize) -> Case {
    let mut budget = r.pick(&[0, 1, 2, 2, 3, 4, 6, 12]);
    let mut min = match r.below(4) {
        0 => r.pick(&[0.0, -0.0, -1.0, -LIMIT, 1.0]),
        1 => r.unit(),
        _ => 0.001,
    };
    let tick = whole_tick(r, max.min(12), budget as usize);
    if r.once_in(60) {
        budget = r.pick(&[4097, u64::MAX]);
    } else if r.once_in(60) {
        min = bad_coordinate(r);
    } else if r.once_in(40) && matches!(tick.particles.len(), 0..=3) {
        budget = 4096;
    }
    Case::Step { tick, min, budget }
}

/// A case of one of these kinds, by their first words.
pub fn case(r: &mut Random, max: usize, kinds: &[String]) -> Case {
    // the whole ones come more often than the single numbers
    let often = [
        "tree", "tree", "visit", "force", "force", "force", "move", "tick", "tick", "step", "floor", "root", "M", "M", "C", "C", "L", "L",
        "E",
    ];
    let open: Vec<&str> = often.iter().copied().filter(|kind| kinds.iter().any(|k| k == kind)).collect();
    match r.pick(&open) {
        "floor" => Case::Floor(number(r)),
        "root" => Case::Root(number(r)),
        "tree" => tree(r, max),
        "visit" => visit(r, max),
        "force" => force(r, max, any_force),
        "M" => force(r, max, |r, particles| many_body(r, particles.len())),
        "C" => force(r, max, collide),
        "L" => force(r, max, |r, particles| link(r, particles.len())),
        "E" => force(r, max, |r, _| center(r)),
        "move" => closing(r, max),
        "tick" => tick(r, max),
        _ => step(r, max),
    }
}
