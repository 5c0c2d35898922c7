//! Many cases on several threads: their number doesn't show.

use std::thread::sleep;
use std::time::Duration;

use crate::check::Disagreement;
use crate::many::compare_all;
use crate::report::Reached;
use crate::{many, texts, Verdict};

const SEED: u64 = 7;
const CASES: u64 = 600;

#[test]
fn one_thread_and_three_give_the_same_report() {
    for report in [many, texts] {
        let Verdict { text, good } = report(CASES, SEED, 1);
        assert!(good && text.contains("600 cases of seed 7: all agree.\n"), "{text}");
        let three = report(CASES, SEED, 3);
        assert_eq!((three.text, three.good), (text, good));
    }
}

/// Cases from 300 on disagree. The first of them takes longest, so that another thread has found a
/// later one meanwhile.
fn late(index: u64, _: &mut Reached) -> Result<(), Disagreement> {
    if index < 300 {
        return Ok(());
    }
    if index == 300 {
        sleep(Duration::from_millis(50));
    }
    Err(Disagreement { about: "a late case", text: index.to_string() })
}

#[test]
fn the_lowest_case_that_disagrees_is_told() {
    for threads in [1, 2, 3, 8] {
        let (index, disagreement) = compare_all(CASES, threads, Reached::default, late)
            .err()
            .expect("half of the cases disagree");
        assert_eq!((index, &disagreement.text[..]), (300, "300"), "{threads} threads");
    }
}

#[test]
fn every_case_is_compared_once() {
    for (cases, threads) in [(0, 1), (0, 3), (1, 3), (2, 3), (CASES, 1), (CASES, 3)] {
        let compared = std::sync::Mutex::new(Vec::new());
        let note = |index, _: &mut Reached| {
            compared.lock().expect("no thread panicked").push(index);
            Ok(())
        };
        assert!(compare_all(cases, threads, Reached::default, note).is_ok());
        let mut compared = compared.into_inner().expect("no thread panicked");
        compared.sort_unstable();
        assert!(compared.into_iter().eq(0..cases), "{cases} cases, {threads} threads");
    }
}
