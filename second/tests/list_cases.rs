//! The generated cases of a listing: they depend on their seed and number alone, keep within their
//! bounds, and come everywhere.

use std::collections::HashSet;

use second::corpus::{list_case, ListCase, ListCoverage};
use second::listing::{line_at, Refusal, LONGEST_IMAGE};

const CASES: u64 = 2_000;

/// The cases of a seed.
fn cases(seed: u64) -> impl Iterator<Item = ListCase> {
    (0..CASES).map(move |number| list_case(seed, number))
}

#[test]
fn every_class_is_reached() {
    for seed in [0, 1, 2, 7] {
        let mut coverage = ListCoverage::new();
        for case in cases(seed) {
            let (answer, buffer) = case.list(0);
            coverage.add(&case, answer, &buffer);
        }
        for (kind, name, count) in &coverage.lines {
            assert!(*count > 0, "seed {seed}: no {kind}, {name}");
        }
        let kinds = ["line", "half", "refusal 20", "refusal 21", "listed"];
        let of = kinds.map(|kind| coverage.lines.iter().filter(|line| line.0 == kind).count());
        assert_eq!(of, [59, 3, 8, 3, 8]);
        assert_eq!(coverage.text().lines().count(), coverage.lines.len());
    }
}

#[test]
fn a_case_depends_on_its_seed_and_number_alone() {
    assert!(cases(1).eq(cases(1)));
    let distinct =
        |seeds: &[u64]| seeds.iter().flat_map(|&seed| cases(seed)).collect::<HashSet<_>>();
    let (one, two) = (distinct(&[1]).len(), distinct(&[1, 2]).len());
    assert!(one as u64 * 100 >= CASES * 90, "only {one} of {CASES} differ");
    assert!(two * 100 >= one * 2 * 95, "only {two} of two seeds differ");
}

/// The answer is what the facts of a case say, and a refusal leaves the buffer as it was.
#[test]
fn cases_are_answered_as_document_02_says() {
    for case in cases(3) {
        let ListCase { image, start, end, room } = &case;
        let (start, end, room) = (*start, *end, *room);
        let (answer, buffer) = case.list(0xa5);
        let is_good = image.len() <= LONGEST_IMAGE
            && [start, end].iter().all(|place| place % 2 == 0)
            && (start..=image.len()).contains(&end);
        if !is_good {
            assert_eq!(answer, Err(Refusal::Range), "{start} to {end} of {}", image.len());
            assert!(buffer.iter().all(|&byte| byte == 0xa5));
            continue;
        }
        let (mut listing, mut at) = (Vec::new(), start);
        while at < end {
            let (line, next) = line_at(image, at, end);
            listing.extend(line.as_bytes());
            at = next;
        }
        let fits = listing.len() <= room;
        assert_eq!(answer, if fits { Ok(listing.len()) } else { Err(Refusal::Room) });
        let expected = if fits { listing } else { Vec::new() };
        let (front, behind) = buffer.split_at(expected.len());
        assert!(front == expected && behind.iter().all(|&byte| byte == 0xa5), "{start} to {end}");
    }
}

#[test]
fn cases_stay_small_enough_to_be_many() {
    let lengths: Vec<usize> = cases(4).map(|case| case.image.len()).collect();
    assert!(lengths.iter().all(|&length| length <= 2 * LONGEST_IMAGE));
    let mean = lengths.iter().sum::<usize>() / lengths.len();
    assert!(mean < 4_000, "{mean} bytes");
    assert!(cases(4).all(|case| case.room <= LONGEST_IMAGE / 2 * 30 + 200));
}
