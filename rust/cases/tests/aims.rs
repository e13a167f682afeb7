//! The generator does what it says: good events are accepted, bad offers get the number aimed at.

use cases::random::{seed_of_case, Random};
use cases::shapes::{Bad, Script, Shape, ALL_SHAPES};
use cases::{case_of, Call};
use second::event::list_of;
use second::judge::{each_offer, whole_list};

#[test]
fn events_of_every_shape_are_accepted() {
    for shape in ALL_SHAPES {
        for n in [1, 2, 3, 8, 32] {
            let random = &mut Random::new(u64::from(n));
            let script = Script::new(shape, n, random);
            let events = script.events(512, Bad::Nowhere, random);
            let accepted = whole_list(usize::from(n), &list_of(&events));
            assert_eq!(accepted.map(|list| list.len()), Ok(512), "{shape:?} {n}");
        }
    }
}

#[test]
fn bad_offers_are_refused_by_every_number_from_10_to_16() {
    let random = &mut Random::new(1);
    let mut seen = [0; 256];
    for _ in 0..100 {
        let script = Script::new(Shape::Mixed, 4, random);
        let list = list_of(&script.events(60, Bad::OneIn(2), random));
        for check in each_offer(4, &list).into_iter().flat_map(Result::err) {
            seen[usize::from(check.number())] += 1;
        }
    }
    assert!(seen[10..=16].iter().all(|count| *count > 100), "{seen:?}");
}

#[test]
fn a_list_of_bad_offers_only_has_nothing_accepted() {
    let random = &mut Random::new(2);
    let script = Script::new(Shape::Mixed, 3, random);
    let list = list_of(&script.events(200, Bad::OneIn(1), random));
    assert!(each_offer(3, &list).iter().all(Result::is_err));
}

#[test]
fn the_same_seed_gives_the_same_case() {
    for index in 0..200 {
        let seed = seed_of_case(3, index);
        assert_eq!(case_of(seed), case_of(seed));
    }
}

#[test]
fn sheets_of_other_layouts_are_mostly_read() {
    let readings = (0..2_000)
        .map(|index| case_of(seed_of_case(4, index)))
        .filter(|case| matches!(case.call, Call::Read | Call::ReadLamport));
    let (accepted, refused): (Vec<_>, Vec<_>) = readings
        .map(|case| second::text::listing(&[], &case.input).output)
        .partition(|printed| printed.starts_with(b"events "));
    assert!(accepted.len() > 150 && refused.len() > 150);
}
