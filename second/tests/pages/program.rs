//! The small program's page: every example gets the answer that stands beside it.

use second::script::answer;

use crate::markdown::{blocks, file, page};

/// The bytes that the page's stand-ins mean.
fn meant(text: &str) -> String {
    [("→", "\t"), ("⏎", "\n"), ("␣", " "), ("␍", "\r"), ("␀", "\0"), ("∅", "")]
        .into_iter()
        .fold(text.to_string(), |text, (shown, byte)| text.replace(shown, byte))
}

/// The inputs and answers of the blocks that have a case on each line.
fn cases() -> Vec<(String, String)> {
    let page = page("PROGRAM.md");
    let lines = blocks(&page, "cases").join("");
    let case = |line: &str| {
        let cells: Vec<&str> = line.split("  ").filter(|cell| !cell.is_empty()).collect();
        let [input, answer, _] = cells[..] else { panic!("{line:?} is no case") };
        (meant(input.trim()), meant(answer.trim()))
    };
    lines.lines().map(case).collect()
}

#[test]
fn whole_examples_have_their_answers() {
    let page = page("PROGRAM.md");
    let (inputs, outputs) = (blocks(&page, "input"), blocks(&page, "output"));
    assert_eq!(inputs.len(), outputs.len());
    for (input, output) in inputs.iter().zip(outputs) {
        assert_eq!(answer(input.as_bytes()), output, "to {input:?}");
    }
    assert_eq!(inputs[0], file("examples/first.txt"));
}

#[test]
fn every_case_has_its_answer() {
    for (input, expected) in cases() {
        assert_eq!(answer(input.as_bytes()), expected, "to {input:?}");
    }
}

/// `bad`, and every reply that the small program can give.
#[test]
fn every_outcome_is_shown() {
    let answers: Vec<String> = cases().into_iter().map(|(_, answer)| answer).collect();
    let ends = [1, 10, 12, 13, 14].map(|reply| format!("end\t{reply}\t"));
    for start in ends.into_iter().chain(["bad\t".into()]) {
        assert!(answers.iter().any(|answer| answer.starts_with(&start)), "{start:?}");
    }
}
