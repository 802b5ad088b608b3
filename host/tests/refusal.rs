//! The numbers and places of refusals, from an answer and back, and how they are shown.
use talemiku::{raw, Refusal};

fn refusal(number: u64, place: u64) -> Refusal {
    Refusal::of(raw::Refusal { number, place }).expect("a refusal")
}

#[test]
fn every_number() {
    assert_eq!(Refusal::of(raw::Refusal { number: 0, place: 0 }), None);
    for number in (1..=10).chain([15, 16]) {
        let place = if [1, 2, 8, 9, 16].contains(&number) { 0 } else { 7 };
        let refusal = refusal(number, place);
        assert_eq!((refusal.number(), refusal.place() as u64), (number, place));
        assert_eq!(refusal.clears_work(), [6, 7, 8, 9, 15].contains(&number));
    }
}

#[test]
fn a_number_that_no_call_gives() {
    for number in [11, u64::MAX] {
        let refusal = refusal(number, 7);
        assert_eq!((refusal.number(), refusal.place()), (number, 7));
        assert!(!refusal.clears_work());
        assert_eq!(refusal.to_string(), format!("refused {number} at 7: a refusal that is not known here"));
    }
}

#[test]
fn a_place_is_shown_where_there_is_one() {
    let shown = [
        (1, 0, "refused 1: too many particles, links, ticks, iterations, corners or edits"),
        (2, 0, "refused 2: lent lengths disagree with the counts"),
        (3, 0, "refused 3 at 0: a link's end is not a particle"),
        (4, 0, "refused 4 at 0: a coordinate is out of range"),
        (5, 0, "refused 5: a setting, or the first number of a list, is out of its range"),
        (5, 1, "refused 5 at 1: a number is out of its range"),
        (6, 1, "refused 6 at 1: the tree would pass level 64"),
        (7, 0, "refused 7 at 0: more nodes than lent slots"),
        (8, 0, "refused 8: more jiggles needed than lent"),
        (9, 0, "refused 9: a result out of range"),
        (10, 0, "refused 10: the length is no multiple of 40, or the first record has an unknown flag"),
        (10, 4095, "refused 10 at 4095: an unknown flag"),
        (15, 0, "refused 15 at 0: what it removes isn't there"),
        (16, 0, "refused 16: the outline doesn't close"),
    ];
    for (number, place, text) in shown {
        assert_eq!(refusal(number, place).to_string(), text);
    }
}
