//! The command: its subcommands, and how it answers a wrong call.

use std::env::temp_dir;
use std::fs;
use std::io::Write;
use std::process::{self, Command, Output, Stdio};

use second::corpus;
use second::vectors::{listing, vectors};

/// Runs the command with this standard input.
fn run(arguments: &[&str], input: &[u8]) -> Output {
    let mut command = Command::new(env!("CARGO_BIN_EXE_second"));
    command.args(arguments).stdin(Stdio::piped()).stdout(Stdio::piped()).stderr(Stdio::piped());
    let mut child = command.spawn().expect("the command starts");
    // A command that doesn't read its input may have ended already; its output tells.
    let _ = child.stdin.take().expect("standard input is piped").write_all(input);
    child.wait_with_output().expect("the command ends")
}

#[test]
fn the_vectors_subcommands_write_the_vectors() {
    for (subcommand, expected) in [("vectors-isa", vectors()), ("vectors-list", listing::vectors())]
    {
        let output = run(&[subcommand], b"");
        assert_eq!(output.status.code(), Some(0));
        assert_eq!(String::from_utf8(output.stdout).expect("plain text"), expected);
        assert!(output.stderr.is_empty());
    }
}

/// A file in the folder for such, which goes with this value.
struct Stored(String);

impl Stored {
    fn new(name: &str, bytes: &[u8]) -> Stored {
        let path = temp_dir().join(format!("second-{}-{name}", process::id()));
        fs::write(&path, bytes).expect("the file can be written");
        Stored(path.into_os_string().into_string().expect("a plain path"))
    }
}

impl Drop for Stored {
    fn drop(&mut self) {
        // If it can't be removed, nothing depends on it.
        let _ = fs::remove_file(&self.0);
    }
}

#[test]
fn list_writes_the_listing_of_a_file() {
    let Stored(file) = &Stored::new("image", b"\x21\x12\xf8\x00\x00\x02\x6f\x08\xff");
    let whole = "00000000\t2112\tadd\tr1\tr2\n00000002\tf8000002\tjl\t6\n\
                 00000006\t6f08\taddi\tr0\t-8\n";
    let cut = "00000002\tf800\thalf\t0xf800\n";
    let calls = [
        ("0", "8", whole),
        ("0x0", "0x8", whole),
        ("00", "0x08", whole),
        ("2", "4", cut),
        ("4", "4", ""),
    ];
    for (start, end, expected) in calls {
        let output = run(&["list", file, start, end], b"");
        assert_eq!(output.status.code(), Some(0), "{start} {end}");
        assert_eq!(String::from_utf8(output.stdout).expect("plain text"), expected);
        assert!(output.stderr.is_empty(), "{start} {end}");
    }
}

#[test]
fn list_tells_why_there_is_no_listing() {
    let Stored(file) = &Stored::new("short", &[0; 8]);
    let Stored(long) = &Stored::new("long", &[0; 65_537]);
    let missing = &format!("{file}-missing");
    let calls = [
        (file, "1", "4", "refusal 20"),
        (file, "4", "2", "refusal 20"),
        (file, "0", "10", "refusal 20"),
        (file, "0", "0xfffffffffffffffe", "refusal 20"),
        (long, "0", "2", "refusal 20"),
        (missing, "0", "2", missing),
        (file, "", "2", "\"\" is no"),
        (file, "0", "0x", "\"0x\" is no"),
        (file, "0", "+2", "\"+2\" is no"),
        (file, "0", "0x+2", "\"0x+2\" is no"),
        (file, "-2", "2", "\"-2\" is no"),
        (file, "0", "1a", "\"1a\" is no"),
        (file, "0", "99999999999999999999", "\"99999999999999999999\" is no"),
    ];
    for (file, start, end, message) in calls {
        let output = run(&["list", file, start, end], b"");
        let told = String::from_utf8(output.stderr).expect("plain text");
        assert_eq!(output.status.code(), Some(1), "{start} {end}");
        assert!(output.stdout.is_empty(), "{start} {end}");
        assert!(told.starts_with(&format!("second: {message}")), "{start} {end}: {told}");
        assert_eq!(told.lines().count(), 1, "{told}");
    }
}

#[test]
fn assemble_writes_the_bytes_of_a_text() {
    let text = b"loop\tldr\tr5\t0\tr0\n\tsj\tloop\nx\tword\tx\n";
    let Stored(file) = &Stored::new("text", text);
    let Stored(empty) = &Stored::new("empty", b"");
    let calls = [
        (file, "0", "8", "8050f7ff00000004\n"),
        (file, "0x100", "0x108", "8050f7ff00000104\n"),
        (file, "2", "4096", "8050f7ff00000006\n"),
        (empty, "0", "0", "\n"),
        (empty, "8", "8", "\n"),
    ];
    for (file, start, length, expected) in calls {
        let output = run(&["assemble", file, start, length], b"");
        assert_eq!(output.status.code(), Some(0), "{start} {length}");
        assert_eq!(String::from_utf8(output.stdout).expect("plain text"), expected);
        assert!(output.stderr.is_empty(), "{start} {length}");
    }
}

#[test]
fn assemble_tells_the_line_and_number_of_a_refusal() {
    let Stored(file) = &Stored::new("good", b"\tjr\tr0\n\tjl\t0\n");
    let Stored(bad) = &Stored::new("bad", b"\tjr\tr0\n\tjr\tr0\n\tjr\tr16\n");
    let calls = [
        (file, "1", "8", "0 29\n"),
        (file, "10", "8", "0 29\n"),
        (file, "0", "5", "2 36\n"),
        (file, "8", "8", "1 36\n"),
        (bad, "0", "8", "3 30\n"),
    ];
    for (file, start, length, expected) in calls {
        let output = run(&["assemble", file, start, length], b"");
        assert_eq!(output.status.code(), Some(1), "{start} {length}");
        assert_eq!(String::from_utf8(output.stdout).expect("plain text"), expected);
        assert!(output.stderr.is_empty(), "{start} {length}");
    }
}

#[test]
fn assemble_tells_what_it_cannot_read() {
    let Stored(file) = &Stored::new("any", b"\tjr\tr0\n");
    let missing = &format!("{file}-missing");
    let calls = [
        (missing, "0", "2", &missing[..]),
        (file, "", "2", "\"\" is no"),
        (file, "0", "-2", "\"-2\" is no"),
        (file, "0", "0xffffffffffffffff", "memory allocation failed"),
    ];
    for (file, start, length, message) in calls {
        let output = run(&["assemble", file, start, length], b"");
        let told = String::from_utf8(output.stderr).expect("plain text");
        assert_eq!(output.status.code(), Some(1), "{start} {length}");
        assert!(output.stdout.is_empty(), "{start} {length}");
        assert!(told.starts_with(&format!("second: {message}")), "{start} {length}: {told}");
        assert_eq!(told.lines().count(), 1, "{told}");
    }
}

#[test]
fn script_answers_standard_input() {
    let inputs: [(&[u8], &[u8]); 3] = [
        (
            b"mem\t16\nat\t00000000\t71102111f400\nrun\t3\n",
            b"end\t10\t3\npc\t00000004\nr1\t00000020\n",
        ),
        (b"mem\t16\n", b"bad\t2\n"),
        (b"\xff\n", b"bad\t1\n"),
    ];
    for (input, expected) in inputs {
        let output = run(&["script"], input);
        assert_eq!(output.status.code(), Some(0));
        assert_eq!(output.stdout, expected);
        assert!(output.stderr.is_empty());
    }
}

#[test]
fn the_corpus_subcommands_write_the_corpus() {
    let coverage = corpus::coverage(&corpus::cases()).text();
    let outputs = [
        ("corpus-cases", corpus::cases_file()),
        ("corpus-answers", corpus::answers_file().into_bytes()),
        ("corpus-coverage", coverage.into_bytes()),
        ("assembly-cases", corpus::assembly_cases_file()),
        ("assembly-answers", corpus::assembly_answers_file().into_bytes()),
    ];
    for (subcommand, expected) in outputs {
        let output = run(&[subcommand], b"");
        assert_eq!(output.status.code(), Some(0), "{subcommand}");
        assert!(output.stdout == expected, "{subcommand}");
        assert!(output.stderr.is_empty(), "{subcommand}");
    }
}

#[test]
fn the_usage_lists_every_subcommand() {
    let usage = String::from_utf8(run(&[], b"").stderr).expect("plain text");
    let subcommands = [
        "vectors-isa",
        "vectors-list",
        "script",
        "list FILE START END",
        "assemble FILE START LENGTH",
        "corpus-cases",
        "corpus-answers",
        "corpus-coverage",
        "assembly-cases",
        "assembly-answers",
    ];
    for subcommand in subcommands {
        assert!(usage.lines().any(|line| line.starts_with(&format!("  {subcommand}"))), "{usage}");
    }
}

#[test]
fn a_wrong_call_gets_the_usage_and_status_2() {
    let calls = [
        &[][..],
        &["vectors"],
        &["vectors-isa", "more"],
        &["vectors-list", "more"],
        &["script", "file"],
        &["list"],
        &["list", "file", "0"],
        &["list", "file", "0", "2", "more"],
        &["assemble"],
        &["assemble", "file", "0"],
        &["assemble", "file", "0", "2", "more"],
        &["--help"],
    ];
    for arguments in calls {
        let output = run(arguments, b"");
        assert_eq!(output.status.code(), Some(2), "{arguments:?}");
        assert!(output.stdout.is_empty(), "{arguments:?}");
        assert!(String::from_utf8_lossy(&output.stderr).starts_with("usage:"), "{arguments:?}");
    }
}
