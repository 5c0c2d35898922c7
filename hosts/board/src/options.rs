//! The words of a call.

use std::ffi::OsString;
use std::path::{Path, PathBuf};

use clap::builder::ValueParser;
use clap::error::ErrorKind;
use clap::{Arg, ArgAction, ArgMatches, Command};
use manik::Reply;

use crate::number::{number, word};

pub const USAGE: &str = include_str!("usage.txt");

/// The board's memory.
const SIZE: u64 = 65_536;

/// Bytes that are to be marked, and the name by which they are watched.
#[derive(Clone, Debug, PartialEq)]
pub struct Mark {
    pub name: Option<String>,
    pub address: u64,
    pub length: u64,
}

/// What is to be done.
pub struct Options {
    pub image: PathBuf,
    pub at: Option<u64>,
    pub size: usize,
    pub marks: Vec<Mark>,
    pub tape: Option<PathBuf>,
    pub lines: Option<PathBuf>,
    pub budget: Option<u64>,
    pub state: Option<PathBuf>,
    pub symbols: Option<PathBuf>,
    pub expect: Option<Reply>,
    pub keep: Vec<String>,
    pub floor: Option<u32>,
    pub reach: Vec<String>,
    pub never: Vec<String>,
    pub why: bool,
    pub json: Option<PathBuf>,
    pub trace: Option<PathBuf>,
    pub from: Option<u64>,
    pub to: Option<u64>,
    pub plot: Option<PathBuf>,
    pub save_state: Option<PathBuf>,
    pub save_memory: Option<PathBuf>,
}

/// What a call asks for.
pub enum Call {
    Help,
    Run(Box<Options>),
}

/// Reads the words behind the program's name; an error is one line.
pub fn read(words: impl Iterator<Item = OsString>) -> Result<Call, String> {
    match command().try_get_matches_from(words) {
        Ok(matches) => {
            let options = options(&matches);
            check(&options)?;
            Ok(Call::Run(Box::new(options)))
        }
        Err(error) if error.kind() == ErrorKind::DisplayHelp => Ok(Call::Help),
        Err(error) => Err(first_line(&error.to_string())),
    }
}

/// What clap has to say, without its hints.
fn first_line(text: &str) -> String {
    let text = text.split("\n\n").next().unwrap_or(text);
    let words: Vec<&str> = text.split_whitespace().collect();
    words.join(" ").trim_start_matches("error: ").to_string()
}

fn command() -> Command {
    let path = || ValueParser::from(clap::builder::PathBufValueParser::new());
    let one = |name: &'static str, value: &'static str| Arg::new(name).long(name).value_name(value);
    let file = |name| one(name, "FILE").value_parser(path());
    let count = |name, value| one(name, value).value_parser(number);
    let many = |name, value| one(name, value).action(ArgAction::Append);
    Command::new("manik-board")
        .no_binary_name(true)
        .disable_version_flag(true)
        .override_help(USAGE)
        .arg(Arg::new("image").value_name("IMAGE").required(true).value_parser(path()))
        .args([count("at", "ADDR"), count("size", "BYTES"), count("budget", "N")])
        .arg(many("mark", "[NAME=]ADDR:LEN").value_parser(mark))
        .args([file("tape").conflicts_with("lines"), file("lines")])
        .args([file("state"), file("symbols")])
        .arg(one("expect", "REPLY").value_parser(reply))
        .args([many("keep", "NAME"), one("floor", "ADDR").value_parser(word)])
        .args([many("reach", "ADDR|SYMBOL"), many("never", "ADDR|SYMBOL")])
        .arg(Arg::new("why").long("why").action(ArgAction::SetTrue))
        .args([file("json"), file("trace"), file("plot")])
        .args([count("from", "STEP").requires("trace"), count("to", "STEP").requires("trace")])
        .args([file("save-state"), file("save-memory")])
}

fn mark(text: &str) -> Result<Mark, String> {
    let (name, place) = match text.split_once('=') {
        Some((name, place)) => (Some(name), place),
        None => (None, text),
    };
    if name.is_some_and(|name| name.is_empty() || name.contains(char::is_whitespace)) {
        return Err("a name is not empty and has no blank".into());
    }
    let (address, length) = place.split_once(':').ok_or("no ADDR:LEN")?;
    let (address, length) = (number(address)?, number(length)?);
    Ok(Mark { name: name.map(String::from), address, length })
}

fn reply(text: &str) -> Result<Reply, String> {
    let reply = number(text)?.try_into().ok().and_then(Reply::from_number);
    let ending = reply.filter(|reply| !reply.is_refusal());
    ending.ok_or("a run ends with 10, 12, 13 or 14".into())
}

fn options(matches: &ArgMatches) -> Options {
    let path = |name: &str| matches.get_one::<PathBuf>(name).cloned();
    let count = |name: &str| matches.get_one::<u64>(name).copied();
    let words = |name: &str| matches.get_many(name).into_iter().flatten().cloned().collect();
    Options {
        image: path("image").unwrap_or_default(),
        at: count("at"),
        size: count("size").unwrap_or(SIZE).try_into().unwrap_or(usize::MAX),
        marks: matches.get_many("mark").into_iter().flatten().cloned().collect(),
        tape: path("tape"),
        lines: path("lines"),
        budget: count("budget"),
        state: path("state"),
        symbols: path("symbols"),
        expect: matches.get_one("expect").copied(),
        keep: words("keep"),
        floor: matches.get_one("floor").copied(),
        reach: words("reach"),
        never: words("never"),
        why: matches.get_flag("why"),
        json: path("json"),
        trace: path("trace"),
        from: count("from"),
        to: count("to"),
        plot: path("plot"),
        save_state: path("save-state"),
        save_memory: path("save-memory"),
    }
}

/// What one word alone cannot show.
fn check(options: &Options) -> Result<(), String> {
    let size = options.size;
    if size == 0 || size > SIZE as usize || !size.is_multiple_of(4) {
        return Err(format!("--size {size}: {}", Reply::MemoryLength));
    }
    for mark in &options.marks {
        let Mark { address, length, .. } = *mark;
        if length == 0 || address.checked_add(length).is_none_or(|end| end > size as u64) {
            return Err(format!(
                "--mark: {length} bytes from {address:#x} on are no part of {size} bytes of memory"
            ));
        }
    }
    let names: Vec<&str> = options.marks.iter().filter_map(|mark| mark.name.as_deref()).collect();
    if let Some(n) = (1..names.len()).find(|&n| names[..n].contains(&names[n])) {
        return Err(format!("--mark: {} is named twice", names[n]));
    }
    if let Some(name) = options.keep.iter().find(|name| !names.contains(&name.as_str())) {
        return Err(format!("--keep: no --mark names {name}"));
    }
    if let (Some(from), Some(to)) = (options.from, options.to) {
        if from > to {
            return Err(format!("--from {from} is above --to {to}"));
        }
    }
    check_outputs(options)
}

/// No two outputs are one, and only two may be standard output.
fn check_outputs(options: &Options) -> Result<(), String> {
    let Options { json, trace, plot, save_state, save_memory, .. } = options;
    if [plot, save_state, save_memory].into_iter().flatten().any(|path| path == Path::new("-")) {
        return Err("only --json and --trace can go to standard output".into());
    }
    let outputs: Vec<&Path> = [json, trace, plot, save_state, save_memory]
        .into_iter()
        .flatten()
        .map(|path| &**path)
        .collect();
    match (1..outputs.len()).find(|&n| outputs[..n].contains(&outputs[n])) {
        Some(n) => Err(format!("{}: two outputs go there", outputs[n].display())),
        None => Ok(()),
    }
}

#[cfg(test)]
mod tests {
    use super::*;

    fn error(words: &str) -> String {
        read(words.split(' ').map(OsString::from)).err().unwrap_or_default()
    }

    #[test]
    fn one_line_for_each_wrong_call() {
        let cases = [
            ("a --budget x", ": no decimal number, nor a hex one after 0x"),
            ("a --size 6", "--size 6: memory length is 0, above 65,536, or no multiple of 4"),
            (
                "a --mark k=0xfff0:17",
                "--mark: 17 bytes from 0xfff0 on are no part of 65536 bytes of memory",
            ),
            ("a --mark k=0:4 --mark k=8:4", "--mark: k is named twice"),
            ("a --keep k", "--keep: no --mark names k"),
            ("a --expect 11", ": a run ends with 10, 12, 13 or 14"),
            ("a --json x --plot x", "x: two outputs go there"),
            ("a --json - --trace -", "-: two outputs go there"),
            ("a --plot -", "only --json and --trace can go to standard output"),
            ("a --trace x --from 3 --to 2", "--from 3 is above --to 2"),
        ];
        for (words, why) in cases {
            // What stands before a colon is clap's, and other versions have other words.
            assert!(error(words).ends_with(why), "{words}: {}", error(words));
        }
        for words in [
            "--budget 1",
            "a b",
            "a --from 1",
            "a --tape x --lines y",
            "a --what",
            "a --mark 5",
            "a --mark =5:1",
        ] {
            assert!(!error(words).is_empty() && !error(words).contains('\n'), "{words}");
        }
    }

    #[test]
    fn marks() {
        let named = Mark { name: Some("key".into()), address: 0xffc0, length: 16 };
        assert_eq!(mark("key=0xffc0:16"), Ok(named));
        assert_eq!(mark("8:0x10"), Ok(Mark { name: None, address: 8, length: 16 }));
    }
}
