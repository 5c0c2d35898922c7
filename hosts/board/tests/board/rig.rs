//! The program as a user calls it, in a folder of the test's own.

use std::ffi::OsStr;
use std::fs;
use std::path::{Path, PathBuf};
use std::process::{Command, Output};
use std::sync::atomic::{AtomicUsize, Ordering};

/// What a call answered.
#[derive(Debug)]
pub struct Answer {
    pub status: Option<i32>,
    pub out: String,
    pub error: String,
}

impl Answer {
    /// The line that begins with this.
    pub fn line(&self, begin: &str) -> &str {
        let found = self.out.lines().find(|line| line.starts_with(begin));
        found.unwrap_or_else(|| panic!("no line {begin:?} in {}", self.out))
    }

    pub fn has(&self, part: &str) -> bool {
        self.out.contains(part)
    }
}

/// A folder that goes away with the test.
pub struct Folder(PathBuf);

impl Folder {
    pub fn new() -> Folder {
        static COUNT: AtomicUsize = AtomicUsize::new(0);
        let name =
            format!("board-{}-{}", std::process::id(), COUNT.fetch_add(1, Ordering::Relaxed));
        let folder = std::env::temp_dir().join(name);
        fs::create_dir(&folder).expect("a folder of its own");
        Folder(folder)
    }

    pub fn path(&self, name: &str) -> PathBuf {
        self.0.join(name)
    }

    pub fn write(&self, name: &str, bytes: impl AsRef<[u8]>) -> PathBuf {
        let path = self.path(name);
        fs::write(&path, bytes).expect("a file");
        path
    }

    /// The names of all files in it.
    pub fn names(&self) -> Vec<String> {
        let entries = fs::read_dir(&self.0).expect("the folder");
        let name = |entry: std::io::Result<fs::DirEntry>| {
            entry.unwrap().file_name().into_string().unwrap()
        };
        let mut names: Vec<String> = entries.map(name).collect();
        names.sort();
        names
    }

    /// Calls the program in this folder, with words parted by blanks.
    pub fn call(&self, words: &str) -> Answer {
        call_in(&self.0, words.split_whitespace())
    }
}

impl Drop for Folder {
    fn drop(&mut self) {
        let _ = fs::remove_dir_all(&self.0);
    }
}

/// Calls the program in the repository's folder.
pub fn call(words: &str) -> Answer {
    call_in(&repository(), words.split_whitespace())
}

pub fn repository() -> PathBuf {
    Path::new(env!("CARGO_MANIFEST_DIR")).join("../..").canonicalize().expect("the repository")
}

fn call_in(folder: &Path, words: impl Iterator<Item = impl AsRef<OsStr>>) -> Answer {
    let program = env!("CARGO_BIN_EXE_manik-board");
    // tools/host says what runs a program on another processor.
    let mut command = match std::env::var_os("CARGO_TARGET_X86_64_UNKNOWN_LINUX_GNU_RUNNER") {
        Some(runner) => {
            let mut command = Command::new(runner);
            command.arg(program);
            command
        }
        None => Command::new(program),
    };
    let Output { status, stdout, stderr } =
        command.args(words).current_dir(folder).output().expect("the program starts");
    let text = |bytes| String::from_utf8(bytes).expect("a text");
    Answer { status: status.code(), out: text(stdout), error: text(stderr) }
}

/// The bytes of a source, from an address on.
pub fn assembled(text: &str, start: usize) -> Vec<u8> {
    let mut image = vec![0; 65_536];
    let assembled = manik::assemble(text.as_bytes(), start, &mut image).expect("a good source");
    image[start..assembled.end].to_vec()
}

/// A source in which blanks stand for tabs, and a slash for a newline.
pub fn code(text: &str) -> Vec<u8> {
    let lines = text.split('/').map(|line| format!("{}\n", line.replace(' ', "\t")));
    assembled(&lines.collect::<String>(), 0)
}
