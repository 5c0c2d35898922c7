//! The files of `examples/` that `docs/BUILD31.md` walks through, and what that page says of them.

use std::collections::BTreeSet;

use second::script::answer;
use second::state::State;
use second::step::step;

use crate::files::{example, file, hex, image, listing, memory, values};

/// The three builds.
const BUILDS: [&str; 3] = ["build31.txt", "build32.txt", "leak.txt"];

/// Where the recipe begins: its test for eight.
const RECIPE: u32 = 0x20;

/// Where the recipe saves its return address.
const SAVE: u32 = 0x30;

/// The key state.
const KEY: std::ops::Range<usize> = 0xd0..0xe0;

const STARS: &str = "********";

fn page() -> String {
    file("docs/BUILD31.md")
}

/// The input with one more line before `run`.
fn with_line(input: &str, line: &str) -> String {
    input.replace("\nrun\t", &format!("\n{line}\nrun\t"))
}

/// The input without its `mark` line.
fn without_marks(input: &str) -> String {
    input.split_inclusive('\n').filter(|line| !line.starts_with("mark")).collect()
}

/// The lines in which two inputs differ.
fn differences<'t>(left: &'t str, right: &'t str) -> Vec<(&'t str, &'t str)> {
    assert_eq!(left.lines().count(), right.lines().count());
    left.lines().zip(right.lines()).filter(|(left, right)| left != right).collect()
}

#[test]
fn first_is_the_whole_example() {
    let first = example("first.txt");
    assert_eq!(first, "mem\t16\nat\t00000000\t71102111f400\nrun\t3\n");
    assert_eq!(answer(first.as_bytes()), "end\t10\t3\npc\t00000004\nr1\t00000020\n");
}

#[test]
fn build_31_loses_three_of_four_key_words() {
    let build31 = example("build31.txt");
    assert_eq!(values(&build31, ["end", "r2", "r12"]), ["10\t200", "0000000b", "000000d4"]);
    let key = values(&build31, ["r8", "r9", "r10", "r11"]);
    assert_eq!(key, [STARS, "0000003a", "0000003a", "0000003a"]);
}

#[test]
fn build_32_keeps_the_key_state() {
    let build32 = example("build32.txt");
    assert_eq!(values(&build32, ["end", "r2", "r12"]), ["10\t200", "00000008", "000000e0"]);
    assert_eq!(values(&build32, ["r8", "r9", "r10", "r11"]), [STARS; 4]);
}

#[test]
fn the_leak_stops_at_its_jump() {
    let leak = example("leak.txt");
    assert_eq!(values(&leak, ["end", "pc", "r8"]), ["14\t138", "00000010", STARS]);
}

#[test]
fn builds_differ_in_one_line() {
    let [build31, build32, leak] = BUILDS.map(example);
    let swapped = [("at\t00000036\tfbfffff56021", "at\t00000036\t6021fbfffff4")];
    assert_eq!(differences(&build31, &build32), swapped);
    let [(left, right)] = swapped;
    assert!(page().contains(&format!("    < {left}\n    ---\n    > {right}\n")));
    let ends = [("at\t0000000c\t8087819782a783b7f400", "at\t0000000c\tc0873080ec027091f400")];
    assert_eq!(differences(&build32, &leak), ends);
}

#[test]
fn the_page_has_the_answers() {
    for name in BUILDS {
        let answer = answer(example(name).as_bytes());
        let shown = format!("    $ tools/manik examples/{name}\n\n```\n{answer}```\n");
        assert!(page().contains(&shown), "{name}:\n{answer}");
    }
}

#[test]
fn answers_depend_on_no_key_byte() {
    for build in BUILDS.map(example) {
        for byte in ["00", "01", "30", "ff"] {
            let other = with_line(&build, &format!("at\t000000d0\t{}", byte.repeat(16)));
            assert_eq!(answer(other.as_bytes()), answer(build.as_bytes()), "{byte}");
        }
    }
}

#[test]
fn without_marks_the_key_shows() {
    let words = ["r8", "r9", "r10", "r11"];
    let [build31, build32, leak] = BUILDS.map(|name| without_marks(&example(name)));
    assert_eq!(values(&build31, words), ["4e4f5441", "0000003a", "0000003a", "0000003a"]);
    assert_eq!(values(&build32, words), ["4e4f5441", "5259204b", "45592053", "54415445"]);
    assert_eq!(values(&leak, ["end", "r9"]), ["10\t200", "00000001"]);
    let no_key = with_line(&leak, "at\t000000d0\t00");
    assert_eq!(values(&no_key, ["end", "r9"]), ["10\t200", "00000000"]);
}

/// The page's table of fewer layers.
#[test]
fn each_layer_above_eight_costs_a_key_word() {
    let build31 = example("build31.txt");
    for layers in 8..=11 {
        let place = format!("{:08x}", 0x50 + 2 * layers);
        let (input, line) = match layers {
            11 => (build31.clone(), "none".into()),
            _ => (with_line(&build31, &format!("at\t{place}\t04")), format!("`at {place} 04`")),
        };
        let cells = values(&input, ["r2", "r8", "r9", "r10", "r11", "r12"]).join(" | ");
        let row = format!("| {layers} | {line} | {cells} |\n");
        let row = row.replace(STARS, &format!("`{STARS}`"));
        assert!(page().contains(&row), "{row}");
    }
}

#[test]
fn eight_layers_do_not_find_the_fault() {
    let names = ["r1", "r2", "r8", "r9", "r10", "r11", "r12"];
    let eight = |name| values(&with_line(&example(name), "at\t00000060\t04"), names);
    assert_eq!(eight("build31.txt"), eight("build32.txt"));
}

/// What the recipe does with a layer.
struct Peel {
    /// The layer's address and the count, as the test for eight finds them.
    layer: u32,
    count: u32,
    /// The step, the place and the value of the saved return address, if it is saved.
    saved: Option<(usize, u32, u32)>,
}

/// Every call of the recipe, and the marks of the key state after the run.
fn peels(name: &str) -> (Vec<Peel>, Vec<u8>) {
    let (mut state, mut memory, mut peels) = (State::fresh(), memory(&example(name)), Vec::new());
    let mut marks = vec![0; memory.len().div_ceil(8)];
    marks[KEY.start / 8..KEY.end / 8].fill(0xff);
    for number in 1..=200 {
        let [_, layer, count, ..] = state.registers.map(|register| register.value);
        let step = step(&mut state, &mut memory, &mut marks, 0).expect("no stop");
        if step.pc == RECIPE {
            peels.push(Peel { layer, count, saved: None });
        }
        if step.pc == SAVE {
            let place = step.address.expect("a store");
            let saved = Some((number, place, state.registers[5].value));
            peels.last_mut().expect("a call").saved = saved;
        }
    }
    (peels, marks[KEY.start / 8..KEY.end / 8].to_vec())
}

/// The page's table of the stack's way down.
#[test]
fn the_stack_goes_down_as_the_page_says() {
    let (peels31, marks31) = peels("build31.txt");
    let (peels32, marks32) = peels("build32.txt");
    assert_eq!((peels31.len(), peels32.len()), (12, 9));
    for (i, peel) in peels31[..11].iter().enumerate() {
        let (step, place, value) = peel.saved.expect("build 31 peels eleven layers");
        assert_eq!(value, if i == 0 { 0x0a } else { 0x3a });
        let build32 = match peels32.get(i).map(|other| (other, other.saved)) {
            Some((other, Some((step, same_place, value)))) => {
                assert_eq!((other.layer, same_place), (peel.layer, place));
                assert_eq!(value, if i == 0 { 0x0a } else { 0x3c });
                format!("{} | {step}", other.count)
            }
            Some((other, None)) => format!("{} | stops", other.count),
            None => " | ".into(),
        };
        let layer = format!("| {} | {:04x} | {place:04x} |", i + 1, peel.layer);
        let row = format!("{layer} {} | {step} | {build32} |\n", peel.count);
        assert!(page().contains(&row), "{row}");
    }
    assert!(peels31[11].saved.is_none(), "the content is no layer");
    assert_eq!(marks31, [0x0f, 0], "of the key's sixteen bytes the first four are marked");
    assert_eq!(marks32, [0xff, 0xff]);
}

#[test]
fn a_cut_run_stands_at_the_first_damage() {
    let cut = example("build31.txt").replace("run\t200", "run\t109");
    assert_eq!(values(&cut, ["end", "r0", "r2"]), ["10\t109", "000000dc", "00000000"]);
}

/// The page's memory map.
#[test]
fn bytes_lie_as_the_page_says() {
    for build in BUILDS.map(example) {
        let memory = memory(&build);
        assert_eq!(memory.len(), 256);
        assert_eq!(memory[0x44..0x50], hex("0000010000000050000000d0"));
        assert_eq!(memory[KEY], *b"NOTARY KEY STATE");
        let rest = [0x16..0x20, 0x6a..KEY.start, KEY.end..256];
        assert!(rest.into_iter().all(|range| memory[range].iter().all(|&byte| byte == 0)));
        let marks = build.lines().filter(|line| line.starts_with("mark"));
        assert_eq!(marks.collect::<Vec<_>>(), ["mark\t000000d0\t16"]);
    }
}

/// The page's table of the certificate.
#[test]
fn the_certificate_is_what_the_files_hold() {
    let page = page();
    let row = |start| page.lines().find_map(|line| line.strip_prefix(start)?.strip_suffix(" |"));
    let addresses = row("| Address | 0x").expect("the addresses").split(" | 0x");
    let bytes = row("| Bytes | ").expect("the bytes").split(" | ");
    let mut end = 0x50;
    let mut certificate = Vec::new();
    for (address, bytes) in addresses.zip(bytes) {
        assert_eq!(usize::from_str_radix(address, 16), Ok(end));
        certificate.extend(hex(bytes));
        end = 0x50 + certificate.len();
    }
    assert_eq!(end, 0x6a);
    for build in BUILDS.map(example) {
        assert_eq!(memory(&build)[0x50..end], certificate);
    }
}

/// A listing on the page: the image that it is of, the range, the text, and the addresses of the
/// table below it.
struct Shown {
    image: String,
    range: std::ops::Range<usize>,
    text: String,
    explained: Vec<String>,
}

fn number(word: &str) -> usize {
    usize::from_str_radix(word.strip_prefix("0x").expect("a number in hex"), 16).expect("a number")
}

/// The listings that the page shows, with the files that their headings name: none stands for all.
fn listings() -> Vec<(Vec<&'static str>, Shown)> {
    let page = page();
    let mut shown = Vec::new();
    for section in page.split("\n###").skip(1) {
        let (heading, body) = section.split_once('\n').expect("a heading");
        let Some((_, call)) = body.split_once("    $ tools/manik-list examples/") else { continue };
        let (command, rest) = call.split_once("\n\n```\n").expect("a block");
        let [image, start, end] = command.split(' ').collect::<Vec<_>>()[..] else {
            panic!("{command}")
        };
        let (text, table) = rest.split_once("```\n").expect("the block's end");
        let rows =
            table.lines().take_while(|line| line.is_empty() || line.starts_with('|')).skip(3);
        let explained =
            rows.filter_map(|row| Some(row.strip_prefix("| ")?.split_once(' ')?.0.into()));
        let named = BUILDS.into_iter().filter(|name| heading.contains(name)).collect();
        let (image, range) = (image.into(), number(start)..number(end));
        shown.push((
            named,
            Shown { image, range, text: text.into(), explained: explained.collect() },
        ));
    }
    shown
}

/// The images are the memories of the inputs with their names.
#[test]
fn images_are_what_the_files_hold() {
    for name in BUILDS {
        let image = image(&name.replace(".txt", ".image"));
        assert_eq!(image, memory(&example(name)), "{name}");
    }
}

/// Every listing is that of each file which its heading names, and together they show all the code.
#[test]
fn the_listings_are_what_the_files_hold() {
    for name in BUILDS {
        let memory = memory(&example(name));
        let mut listed = BTreeSet::new();
        for (named, Shown { image, range, text, explained }) in listings() {
            assert!(
                named.is_empty()
                    || named.iter().any(|other| image == other.replace(".txt", ".image"))
            );
            if !named.is_empty() && !named.contains(&name) {
                continue;
            }
            assert_eq!(text, listing(&memory, range.clone()), "{name} {range:?}");
            let addresses: Vec<&str> = text.lines().map(|line| &line[4..8]).collect();
            assert_eq!(addresses, explained, "{name} {range:?}");
            listed.extend(range);
        }
        assert_eq!(listed, (0..0x16).chain(0x20..0x44).collect(), "{name}");
    }
}
