//! T1 to T13 of document 01 and further cases worked by hand, each with the answer that it must have.

use crate::by_rule;
use crate::case::{hex, write, Case, Force, Record, Tick};
use crate::rust::{self, MinusZero};

struct Row {
    name: &'static str,
    case: Case,
    expected: String,
}

/// Prints a line for each row; true if the Rust and the rules both give every answer.
pub fn run() -> bool {
    let mut fine = true;
    for row in rows() {
        let answers = [("rust", rust::answer(&row.case, MinusZero::AsZero)), ("rule", by_rule(&row.case))];
        fine &= report(&row, &answers);
    }
    let kept = minus_zero_kept();
    let answer = rust::answer(&kept.case, MinusZero::AsItIs);
    fine & report(&kept, &[("raw", answer)])
}

fn report(row: &Row, answers: &[(&str, String)]) -> bool {
    let wrong: Vec<String> = answers.iter().filter(|(_, a)| *a != row.expected).map(|(mode, a)| format!(", {mode} {a}")).collect();
    if wrong.is_empty() {
        println!("{}: right", row.name);
    } else {
        println!("{}: WRONG: case {}, expected {}{}", row.name, write(&row.case), row.expected, wrong.concat());
    }
    wrong.is_empty()
}

// ---- how cases and answers are written down

const LIMIT: f64 = 1_099_511_627_776.0; // 2^40

fn half_to(n: i32) -> f64 {
    0.5f64.powi(n)
}

fn particle(x: f64, y: f64, vx: f64, vy: f64, flags: u64) -> Record {
    Record { x, y, vx, vy, flags }
}

fn still(points: &[[f64; 2]]) -> Vec<Record> {
    points.iter().map(|&[x, y]| particle(x, y, 0.0, 0.0, 0)).collect()
}

fn tree(slots: usize, points: &[[f64; 2]]) -> Case {
    Case::Tree { slots, particles: still(points) }
}

fn force(force: Force, points: &[[f64; 2]], draws: &[f64]) -> Case {
    Case::Force { slots: 100, force, alpha: 1.0, particles: still(points), draws: draws.to_vec() }
}

fn many_body(strengths: &[f64]) -> Force {
    Force::ManyBody { strengths: strengths.to_vec() }
}

fn collide(strength: f64, iterations: u64, radii: &[f64]) -> Force {
    Force::Collide { strength, iterations, radii: radii.to_vec() }
}

fn link(links: &[(usize, usize)], strengths: &[f64], distances: &[f64]) -> Force {
    Force::Link { iterations: 1, links: links.to_vec(), strengths: strengths.to_vec(), distances: distances.to_vec() }
}

fn center(x: f64, y: f64) -> Force {
    Force::Center { x, y, strength: 1.0 }
}

/// A tick whose alpha stays 1.
fn tick(forces: &[Force], particles: Vec<Record>, draws: &[f64]) -> Tick {
    let mut slots = forces.to_vec();
    slots.resize(8, Force::Empty);
    Tick { slots: 100, alpha: 1.0, target: 0.0, decay: 0.0, velocity_decay: 0.5, particles, forces: slots, draws: draws.to_vec() }
}

fn numbers(list: &[f64]) -> String {
    list.iter().map(|&x| format!(" {}", hex(x))).collect()
}

fn listed(extent: [f64; 4], nodes: &str, chains: &str) -> String {
    let gap = |text: &str| if text.is_empty() { String::new() } else { format!(" {text}") };
    format!("ok{} {} |{} |{}", numbers(&extent), nodes.split_whitespace().count(), gap(nodes), gap(chains))
}

fn refused(number: u8, place: usize) -> String {
    format!("refused {number} {place}")
}

fn row(name: &'static str, case: Case, expected: String) -> Row {
    Row { name, case, expected }
}

// ---- the rows

fn rows() -> Vec<Row> {
    [trees(), forces(), moves(), ticks(), refusals(), orders()].into_iter().flatten().collect()
}

/// Internal nodes from level 0 on, all in quadrant 0, then two leaves below in these quadrants.
fn ladder(internal: usize, quadrants: [usize; 2]) -> String {
    let mut nodes: Vec<String> = (0..internal).map(|level| format!("{level},0,1,0")).collect();
    nodes.extend(quadrants.map(|q| format!("{internal},{q},2,1")));
    nodes.join(" ")
}

fn trees() -> Vec<Row> {
    let above = f64::from_bits(LIMIT.to_bits() + 1);
    let unit = [0.0, 0.0, 1.0, 1.0];
    let near = [[0.0, 0.0], [half_to(64), 0.0]];
    let wide = [[LIMIT, -LIMIT], [LIMIT, LIMIT], [-LIMIT, 0.0]];
    let corners = [[0.0, 0.0], [1.0, 1.0], [-1.0, 0.0]];
    vec![
        row("T1, no points", tree(9, &[]), listed([0.0; 4], "", "")),
        row("T2, a point twice", tree(9, &[[0.0, 0.0], [0.0, 0.0]]), listed(unit, "0,0,2,2", "0 1")),
        row("T2, 0.0 and -0.0", tree(9, &[[0.0, 0.0], [-0.0, -0.0]]), listed(unit, "0,0,2,2", "0 1")),
        row("T3", tree(9, &[[-0.5, 0.0]]), listed([-1.0, 0.0, 0.0, 1.0], "0,0,2,1", "0")),
        row("T4", tree(9, &corners[..2]), listed([0.0, 0.0, 2.0, 2.0], "0,0,1,0 1,0,2,1 1,3,2,1", "0 1")),
        row("T5", tree(9, &corners), listed([-2.0, 0.0, 2.0, 4.0], "0,0,1,0 1,0,2,1 1,1,1,0 2,0,2,1 2,3,2,1", "2 0 1")),
        row("T6", tree(66, &near), listed(unit, &ladder(64, [0, 1]), "0 1")),
        row("T6, 65 slots", tree(65, &near), refused(7, 1)),
        row("T7", tree(99, &[[0.0, 0.0], [half_to(65), 0.0]]), refused(6, 1)),
        row("T8, at 2^40", tree(9, &[[LIMIT, 0.0]]), listed([LIMIT, 0.0, LIMIT + 1.0, 1.0], "0,0,2,1", "0")),
        row("T8, above 2^40", tree(9, &[[above, 0.0]]), refused(4, 0)),
        row("T13, of 0.25", Case::Root(0.25), format!("ok {}", hex(0.5))),
        row("T13, of 2^-1074", Case::Root(f64::from_bits(1)), format!("ok {}", hex(half_to(537)))),
        row(
            "the lister's tree",
            tree(9, &[[0.0, 0.0], [3.0, 3.0], [0.0, 0.0]]),
            listed([0.0, 0.0, 4.0, 4.0], "0,0,1,0 1,0,2,2 1,3,2,1", "0 2 1"),
        ),
        row("an old leaf is pushed down", tree(999, &[[0.0, 0.0], [half_to(64), 0.0], [1.0, 1.0]]), refused(6, 2)),
        row("a middle that rounds", tree(99, &[[1.0, 0.0], [1.0, half_to(53)]]), listed([1.0, 0.0, 2.0, 1.0], &ladder(53, [1, 3]), "0 1")),
        row(
            "side 2^43",
            tree(9, &wide),
            listed([-3.0, -1.0, 5.0, 7.0].map(|end| end * LIMIT), "0,0,1,0 1,0,2,1 1,1,1,0 2,0,2,1 2,2,2,1", "2 0 1"),
        ),
        row("no slots", tree(0, &[[0.0, 0.0]]), refused(7, 0)),
        row("visit, node 2 skipped", Case::Visit { particles: still(&corners), skips: vec![2] }, "ok 0 1 2 | 1 3 4 2 0".to_string()),
        row("floor of -0.0", Case::Floor(-0.0), "ok 0".to_string()),
        row("floor of -0.5", Case::Floor(-0.5), "ok -1".to_string()),
    ]
}

/// Strengths 0.0 and -0.0 on a velocity of -0.0.
fn minus_zero() -> Case {
    let particles = vec![particle(0.75, 0.75, -0.0, -0.0, 0), particle(1.25, 1.25, 0.0, 0.0, 0)];
    Case::Force { slots: 9, force: many_body(&[0.0, -0.0]), alpha: 1.0, particles, draws: Vec::new() }
}

/// The listed difference: handed -0.0 as it is, the Rust keeps the velocity's -0.0.
fn minus_zero_kept() -> Row {
    row("strength -0.0 as it is", minus_zero(), format!("ok 6 0 |{}", numbers(&[-0.0, -0.0, 0.0, 0.0])))
}

fn forces() -> Vec<Row> {
    let side = [[0.0, 0.0], [1.0, 0.0]];
    let apart = [[0.0, 0.0], [3.0, 3.0]];
    let tied = [[0.0, 0.0], [3.0, 4.0]];
    let bump = collide(1.0, 1, &[1.0, 1.0]);
    let far = |ends: [f64; 8]| format!("ok |{}", numbers(&ends));
    vec![
        row("T9", force(many_body(&[-30.0, -30.0]), &apart, &[]), format!("ok 6 0 |{}", numbers(&[-5.0, -5.0, 5.0, 5.0]))),
        row("T10", force(bump.clone(), &side, &[0.0]), format!("ok 6 1 |{}", numbers(&[-0.5, 0.0, 0.5, 0.0]))),
        row("T10, no draw lent", force(bump, &side, &[]), refused(8, 0)),
        row("T11", force(link(&[(0, 1)], &[], &[0.0]), &tied, &[]), format!("ok 0 0 |{}", numbers(&[1.5, 2.0, -1.5, -2.0]))),
        row("T12", force(center(0.0, 0.0), &[[0.0, 0.0], [2.0, 4.0]], &[]), far([-1.0, -2.0, 0.0, 0.0, 1.0, 2.0, 0.0, 0.0])),
        row("T12, on none", force(center(0.0, 0.0), &[], &[]), "ok |".to_string()),
        row("strength -0.0 read as 0.0", minus_zero(), format!("ok 6 0 |{}", numbers(&[0.0; 4]))),
        row(
            "Collide, coincident: nothing, no draw",
            force(collide(1.0, 1, &[1.0, 1.0]), &[[0.0, 0.0]; 2], &[]),
            format!("ok 2 0 |{}", numbers(&[0.0; 4])),
        ),
        row(
            "Collide, 0 iterations and no slots",
            Case::Force { slots: 0, force: collide(1.0, 0, &[1.0]), alpha: 1.0, particles: still(&side[..1]), draws: vec![] },
            format!("ok 0 0 |{}", numbers(&[0.0; 2])),
        ),
        row("8,192 links", force(link(&[(0, 0); 8192], &[], &[0.0; 8192]), &side[..1], &[]), format!("ok 0 0 |{}", numbers(&[0.0; 2]))),
    ]
}

fn moves() -> Vec<Row> {
    let fast = |flags| Case::Move { decay: 0.5, particles: vec![particle(1.0, 2.0, 1e10, -1e10, flags)] };
    let free = format!("ok |{}", numbers(&[2147483648.0, -2147483646.0, 5e9, -5e9]));
    let held = format!("ok |{}", numbers(&[1.0, -2147483646.0, 0.0, -5e9]));
    let many = |n: usize| Case::Move { decay: 0.5, particles: still(&vec![[1.0, 2.0]; n]) };
    vec![
        row("a move is clamped, its velocity not", fast(0), free),
        row("flag 1 holds x", fast(1), held.clone()),
        row("flag 2 holds x too", fast(2), held.clone()),
        row("both flags hold x alone", fast(3), held),
        row("4,096 particles", many(4096), format!("ok |{}", numbers(&[1.0, 2.0, 0.0, 0.0]).repeat(4096))),
        row("4,097 particles", many(4097), refused(1, 0)),
    ]
}

fn ticks() -> Vec<Row> {
    let twice = [[0.0, 0.0]; 2];
    let pushed = |draws: &[f64]| tick(&[many_body(&[1.0, 1.0]), many_body(&[1.0, 1.0])], still(&twice), draws);
    let drawing = tick(&[many_body(&[0.0, 0.0])], still(&twice), &[0.5; 5]);
    let merging = tick(&[center(LIMIT / 2.0, 0.0), many_body(&[0.0, 0.0])], still(&[[0.0, 0.0], [half_to(20), 0.0]]), &[0.5; 4]);
    let merged = [LIMIT / 2.0, 0.0, 0.0, 0.0, LIMIT / 2.0, 0.0, 0.0, 0.0];
    let alone = still(&twice[..1]);
    let shifted = |last| tick(&[many_body(&[1.0, last]), collide(1.0, 1, &[])], alone.clone(), &[]);
    let hot = Tick { target: LIMIT, decay: 2.0, ..tick(&[], Vec::new(), &[]) };
    let at_home = tick(&[center(0.0, 0.0)], vec![particle(2.0, 4.0, 0.0, 0.0, 1)], &[]);
    let one = hex(1.0);
    vec![
        row("8 where met, before 9 after the force", Case::Tick(pushed(&[0.0; 2])), refused(8, 0)),
        row("9 after a force", Case::Tick(pushed(&[0.0; 4])), refused(9, 0)),
        row("9 after the alpha step", Case::Tick(hot), refused(9, 0)),
        row("a held axis returns to tick entry", Case::Tick(at_home), format!("ok 0 0 {one} |{}", numbers(&[2.0, 0.0, 0.0, 0.0]))),
        row("Center merges two points", Case::Tick(merging), format!("ok 2 4 {one} |{}", numbers(&merged))),
        row("lists lent end to end", Case::Tick(shifted(1.0)), format!("ok 2 0 {one} |{}", numbers(&[0.0; 4]))),
        row("the same, a radius of -1", Case::Tick(shifted(-1.0)), refused(5, 0)),
        row(
            "a step that runs out of draws",
            Case::Step { tick: drawing.clone(), min: 0.001, budget: 3 },
            format!("ok 1 0 2 4 {one} 8 0 |{}", numbers(&[0.0; 8])),
        ),
        row(
            "a step with nothing to do",
            Case::Step { tick: drawing.clone(), min: 1.0, budget: 3 },
            format!("ok 0 1 0 0 {one} 0 0 |{}", numbers(&[0.0; 8])),
        ),
        row("a budget of 4,097", Case::Step { tick: drawing, min: 1.0, budget: 4097 }, refused(1, 0)),
    ]
}

fn refusals() -> Vec<Row> {
    let nan = f64::NAN;
    let pair = [[0.0, 0.0], [3.0, 4.0]];
    let ends = [(0, 1), (1, 0)];
    let with = |f: Force, alpha: f64, particles: Vec<Record>| Case::Force { slots: 9, force: f, alpha, particles, draws: vec![] };
    let sound = || still(&pair);
    let columns = vec![particle(0.0, 0.0, f64::INFINITY, 0.0, 0), particle(nan, 0.0, 0.0, 0.0, 0)];
    let records = vec![particle(0.0, 0.0, f64::INFINITY, 0.0, 0), particle(nan, 0.0, 0.0, 0.0, 4)];
    let flagged = vec![particle(nan, 0.0, nan, 0.0, 4)];
    vec![
        row("lists: 4 before 5", with(many_body(&[1.0, 1.0]), 1.0, columns), refused(4, 1)),
        row("records: the first bad one", Case::Tree { slots: 9, particles: records.clone() }, refused(5, 0)),
        row("records: Center's too", with(center(0.0, 0.0), 1.0, records), refused(5, 0)),
        row("within a record flags first", Case::Tree { slots: 9, particles: flagged }, refused(10, 0)),
        row("a link's end", with(link(&[(0, 1), (2, 0)], &[], &[0.0; 2]), 1.0, sound()), refused(3, 1)),
        row("strengths before distances", with(link(&ends, &[1.0, nan], &[-1.0, 0.0]), 1.0, sound()), refused(5, 1)),
        row("strengths for no links", with(link(&[], &[1.0], &[]), 1.0, sound()), refused(2, 0)),
        row("a force's alpha", with(many_body(&[1.0, 1.0]), nan, sound()), refused(5, 0)),
        row("Collide looks at no alpha", with(collide(1.0, 0, &[1.0, 1.0]), nan, sound()), format!("ok 0 0 |{}", numbers(&[0.0; 4]))),
        row("65 iterations", with(collide(1.0, 65, &[]), 1.0, sound()), refused(1, 0)),
        row("8,193 links", with(link(&[(9, 9); 8193], &[], &[]), 1.0, sound()), refused(1, 0)),
        row(
            "65 iterations of links",
            with(Force::Link { iterations: 65, links: vec![], strengths: vec![], distances: vec![] }, 1.0, sound()),
            refused(1, 0),
        ),
        row("a link's other end", with(link(&[(1, 0), (0, 2)], &[], &[0.0; 2]), 1.0, sound()), refused(3, 1)),
        row("radii before the strength", with(collide(nan, 1, &[1.0, -1.0]), 1.0, sound()), refused(5, 1)),
        row("y alone", tree(9, &[[0.0, 0.0], [0.0, -2.0 * LIMIT]]), refused(4, 1)),
        row("vy alone", Case::Tree { slots: 9, particles: vec![particle(0.0, 0.0, 0.0, nan, 0)] }, refused(5, 0)),
        row("a draw that is not used", force(many_body(&[1.0]), &pair[..1], &[0.0, 2.0]), refused(5, 1)),
        row("draws of 1 and -1", force(many_body(&[1.0]), &pair[..1], &[1.0, -1.0]), format!("ok 1 0 |{}", numbers(&[0.0; 2]))),
        row("a radius of 2^40", force(collide(1.0, 1, &[LIMIT]), &pair[..1], &[]), format!("ok 1 0 |{}", numbers(&[0.0; 2]))),
    ]
}

/// The order of the tests before a tick.
fn orders() -> Vec<Row> {
    let nan = f64::NAN;
    let sound = || still(&[[0.0, 0.0], [3.0, 4.0]]);
    let unsound = || still(&[[0.0, 0.0], [nan, 4.0]]);
    let ticked = |forces: &[Force], particles, draws: &[f64]| Case::Tick(tick(forces, particles, draws));
    let late = [0.5, 2.0];
    let cold = Tick { alpha: nan, ..tick(&[], sound(), &late) };
    let own = [0.0, 0.0, 0.0, 0.0, 3.0, 4.0, 0.0, 0.0];
    vec![
        row("counts before lengths", ticked(&[many_body(&[1.0]), collide(1.0, 65, &[])], sound(), &[]), refused(1, 0)),
        row("lengths before ends", ticked(&[link(&[(9, 9)], &[], &[]), many_body(&[1.0, 1.0])], sound(), &[]), refused(2, 0)),
        row("one strength too few", ticked(&[many_body(&[1.0])], sound(), &[]), refused(2, 0)),
        row("two strengths for one link", ticked(&[link(&[(0, 1)], &[1.0; 2], &[0.0])], sound(), &[]), refused(2, 0)),
        row("ends before records", ticked(&[link(&[(0, 1), (0, 2)], &[], &[0.0; 2])], unsound(), &[]), refused(3, 1)),
        row("records before lists", ticked(&[many_body(&[nan, 1.0])], unsound(), &[]), refused(4, 1)),
        row("lists before draws", ticked(&[many_body(&[1.0, nan])], sound(), &[2.0]), refused(5, 1)),
        row("an unknown kind before draws", ticked(&[Force::Unknown(9)], sound(), &late), refused(5, 0)),
        row("an earlier slot's list first", ticked(&[many_body(&[1.0, nan]), Force::Unknown(9)], sound(), &[]), refused(5, 1)),
        row("draws before settings", Case::Tick(cold), refused(5, 1)),
        row("alpha_min", Case::Step { tick: tick(&[], sound(), &[]), min: nan, budget: 1 }, refused(5, 0)),
        row(
            "strengths lent before distances",
            ticked(&[link(&[(0, 0)], &[-1.0], &[1.0])], sound(), &[]),
            format!("ok 0 0 {} |{}", hex(1.0), numbers(&own)),
        ),
    ]
}
