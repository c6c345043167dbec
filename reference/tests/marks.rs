//! Given marks (request 3): counts worked out by hand, and that 7 comes exactly when the count is
//! above 0.

use reference::generate::{given, GivenTape, Random};
use reference::marks::{count_missing, missing, required, Marks, Place, Sizes};
use reference::tape::{read, MOST_COLUMNS, MOST_STATES, MOST_STEPS};
use reference::Refusal;

/// How many places can be required.
const PLACES: usize = 137;

/// Sizes from n, m and N.
fn sizes(states: usize, inputs: usize, horizon: usize) -> Sizes {
    Sizes {
        states,
        inputs,
        horizon,
    }
}

/// Marks of these places.
fn marks(places: impl IntoIterator<Item = Place>) -> Marks {
    places.into_iter().collect()
}

/// The marks of all places but these.
fn all_but(left_out: &[Place]) -> Marks {
    let mut marks = marks(Sizes::MOST.places());
    for place in left_out {
        marks.remove(place);
    }
    marks
}

/// The steps of a column.
fn steps(column: usize, horizon: usize) -> impl Iterator<Item = Place> {
    (0..horizon).map(move |k| Place::Step(column, k))
}

#[test]
fn places_in_order() {
    let places = Sizes::MOST.places();
    assert_eq!(places.len(), PLACES);
    // 10 columns, 6 start values, the rounds, 12 steps for each column.
    for (place, expected) in [
        (0, Place::Column(0)),
        (9, Place::Column(9)),
        (10, Place::Start(0)),
        (15, Place::Start(5)),
        (16, Place::Search),
        (17, Place::Step(0, 0)),
        (28, Place::Step(0, 11)),
        (29, Place::Step(1, 0)),
        // The last of a word, and the first of the next.
        (63, Place::Step(3, 10)),
        (64, Place::Step(3, 11)),
        (127, Place::Step(9, 2)),
        (128, Place::Step(9, 3)),
        (136, Place::Step(9, 11)),
    ] {
        assert_eq!(places[place], expected);
    }
    // Marks are a set in this same order.
    assert!(places.is_sorted());
    let places: Vec<Place> = marks(places.iter().rev().copied()).into_iter().collect();
    assert_eq!(places, Sizes::MOST.places());
}

#[test]
fn places_of_smaller_sizes() {
    use Place::{Column, Search, Start, Step};
    assert_eq!(
        sizes(1, 1, 1).places(),
        [
            Column(0),
            Column(1),
            Start(0),
            Search,
            Step(0, 0),
            Step(1, 0)
        ]
    );
    // 3 columns, 2 start values, the rounds, 2 steps for each column.
    assert_eq!(sizes(2, 1, 2).places().len(), 3 + 2 + 1 + 6);
    assert_eq!(sizes(1, 4, 12).places().len(), 5 + 1 + 1 + 60);
}

#[test]
fn sizes_in_range() {
    for legal in [sizes(1, 1, 1), sizes(6, 4, 12)] {
        assert!(legal.in_range());
    }
    for wrong in [
        sizes(0, 1, 1),
        sizes(1, 0, 1),
        sizes(1, 1, 0),
        sizes(7, 1, 1),
        sizes(1, 5, 1),
        sizes(1, 1, 13),
    ] {
        assert!(!wrong.in_range());
    }
}

#[test]
fn nothing_and_everything() {
    assert_eq!(count_missing(Sizes::MOST, &Marks::new()), 17);
    assert_eq!(count_missing(Sizes::MOST, &all_but(&[])), 0);
    // 2 columns, a start value and the rounds.
    assert_eq!(count_missing(sizes(1, 1, 1), &Marks::new()), 4);
    assert_eq!(count_missing(sizes(1, 1, 1), &all_but(&[])), 0);
    assert_eq!(count_missing(sizes(6, 1, 12), &Marks::new()), 7 + 6 + 1);
}

#[test]
fn each_place_alone() {
    for place in Sizes::MOST.places() {
        assert_eq!(missing(Sizes::MOST, &all_but(&[place])), [place]);
        let others = match place {
            // The other 11 of its column.
            Place::Step(..) => 17 + 11,
            _ => 16,
        };
        assert_eq!(count_missing(Sizes::MOST, &marks([place])), others);
    }
}

#[test]
fn the_most_that_can_be_missing() {
    // One step of each column: 17, and 11 for each of the 10.
    let mut ones = marks((0..10).map(|column| Place::Step(column, column)));
    assert_eq!(count_missing(Sizes::MOST, &ones), 127);
    // A second step of one, then another one's column.
    ones.insert(Place::Step(4, 11));
    assert_eq!(count_missing(Sizes::MOST, &ones), 126);
    ones.insert(Place::Column(5));
    assert_eq!(count_missing(Sizes::MOST, &ones), 125);
}

#[test]
fn a_curve_needs_all_its_steps() {
    // All steps and nothing else.
    let all_steps = marks((0..10).flat_map(|column| steps(column, 12)));
    assert_eq!(count_missing(Sizes::MOST, &all_steps), 17);
    // One curve: none of its steps is missing, and none of another column's.
    let curve = marks(steps(3, 12));
    assert_eq!(count_missing(Sizes::MOST, &curve), 17);
    assert_eq!(required(Sizes::MOST, &curve).len(), 17 + 12);
    // Without its last step and with the next column's first.
    let mut curve = marks(steps(3, 11));
    curve.insert(Place::Step(4, 0));
    assert_eq!(count_missing(Sizes::MOST, &curve), 17 + 1 + 11);
}

#[test]
fn marks_beyond_the_sizes_change_nothing() {
    let small = sizes(2, 1, 3);
    let within = marks(small.places());
    let beyond: Marks = all_but(&small.places());
    // Columns 3 to 9, starts 2 to 5, steps 3 to 11 of three columns and 12 of seven.
    assert_eq!(beyond.len(), 7 + 4 + 27 + 84);
    assert_eq!(missing(small, &beyond), missing(small, &Marks::new()));
    assert_eq!(count_missing(small, &beyond), 3 + 2 + 1);
    assert_eq!(count_missing(small, &all_but(&[])), 0);
    assert_eq!(count_missing(small, &within), 0);
    // A step N of a column makes no curve, a step N − 1 makes one.
    assert_eq!(count_missing(small, &marks([Place::Step(2, 3)])), 6);
    assert_eq!(count_missing(small, &marks([Place::Step(2, 2)])), 6 + 2);
    assert_eq!(count_missing(small, &marks([Place::Step(3, 2)])), 6);
}

/// The count in another way: what is required less what is given, kind by kind.
fn counted_by_kind(sizes: Sizes, marks: &Marks) -> usize {
    let without = |count: usize, place: fn(usize) -> Place| {
        let given = (0..count).filter(|index| marks.contains(&place(*index)));
        count - given.count()
    };
    let columns = without(sizes.columns(), Place::Column);
    let starts = without(sizes.states, Place::Start);
    let search = without(1, |_| Place::Search);
    let curves = (0..sizes.columns()).map(|column| {
        let given = steps(column, sizes.horizon).filter(|step| marks.contains(step));
        match given.count() {
            0 => 0,
            given => sizes.horizon - given,
        }
    });
    columns + starts + search + curves.sum::<usize>()
}

/// Reads the tape that gives exactly the marks within the sizes.
fn read_given(sizes: Sizes, marks: &Marks, random: &mut Random) {
    let within: Marks = sizes.places().into_iter().collect();
    let given = marks.intersection(&within).copied().collect();
    let tape = GivenTape::of(sizes, given, random);
    let count = count_missing(sizes, marks);
    check_answer(&tape, count);
    assert_eq!(count, counted_by_kind(sizes, marks));
}

/// 7 at FF where the count is above 0, else the furnace with these sizes.
fn check_answer(tape: &GivenTape, count: usize) {
    let sizes = tape.sizes;
    let answer = read(&tape.bytes);
    if count > 0 {
        let offset = tape.bytes.len() - 1;
        assert_eq!(answer, Err(Refusal::Absent { offset }), "{tape:?}");
        return;
    }
    let furnace = answer.unwrap_or_else(|refusal| panic!("{refusal:?}: {tape:?}"));
    let found = (furnace.states, furnace.inputs, furnace.horizon);
    assert_eq!(found, (sizes.states, sizes.inputs, sizes.horizon));
    for (column, curve) in furnace.curves.iter().enumerate() {
        let first = tape.marks.contains(&Place::Step(column, 0));
        assert_eq!(curve.is_some(), first, "{tape:?}");
    }
}

#[test]
fn refusal_7_for_all_marks_of_small_sizes() {
    let mut random = Random::new(3);
    for small in [
        sizes(1, 1, 1),
        sizes(1, 1, 2),
        sizes(2, 1, 1),
        sizes(1, 2, 2),
    ] {
        let places = small.places();
        for set in 0..1 << places.len() {
            let in_set = |place: &usize| set >> place & 1 == 1;
            let given = (0..places.len()).filter(in_set);
            read_given(small, &marks(given.map(|place| places[place])), &mut random);
        }
    }
}

#[test]
fn refusal_7_for_any_marks() {
    let mut random = Random::new(5);
    for _ in 0..10_000 {
        let sizes = sizes(
            1 + random.below(MOST_STATES),
            1 + random.below(MOST_COLUMNS - MOST_STATES),
            1 + random.below(MOST_STEPS),
        );
        // Of all places, those beyond the sizes included.
        let given = random.below(PLACES + 1);
        let mut places = Sizes::MOST.places();
        random.shuffle(&mut places);
        places.truncate(given);
        read_given(sizes, &marks(places), &mut random);
    }
}

#[test]
fn refusal_7_for_generated_tapes() {
    let (mut accepted, mut alone) = (0, 0);
    for seed in 0..10_000 {
        let tape = given(seed);
        assert_eq!(tape, given(seed));
        let missing = tape.missing();
        assert_eq!(missing.len(), count_missing(tape.sizes, &tape.marks));
        assert_eq!(missing.len(), counted_by_kind(tape.sizes, &tape.marks));
        check_answer(&tape, missing.len());
        accepted += u32::from(missing.is_empty());
        alone += u32::from(missing.len() == 1);
    }
    assert!(accepted > 1_000, "{accepted}");
    assert!(alone > 2_000, "{alone}");
}

#[test]
fn refusal_7_for_each_place_of_the_largest_sizes() {
    let mut random = Random::new(7);
    read_given(Sizes::MOST, &all_but(&[]), &mut random);
    for places in Sizes::MOST.places().windows(2) {
        for left_out in [&places[..1], &places[1..], places] {
            let given = all_but(left_out);
            assert_eq!(missing(Sizes::MOST, &given), left_out);
            read_given(Sizes::MOST, &given, &mut random);
        }
    }
}
