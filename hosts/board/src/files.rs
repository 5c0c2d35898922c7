//! Files: read whole up to a limit, and written aside and then put in their places, so that a
//! failure on the way leaves everything as it was.

use std::ffi::OsString;
use std::fs::{self, File, OpenOptions, Permissions};
use std::io::{self, BufWriter, ErrorKind, Read, Write};
use std::os::unix::fs::OpenOptionsExt;
use std::path::{Path, PathBuf};

/// A path and what is wrong with it.
pub fn told(path: &Path, why: impl std::fmt::Display) -> String {
    format!("{}: {why}", path.display())
}

/// The bytes of a file that has at most `limit`.
pub fn read(path: &Path, limit: usize) -> Result<Vec<u8>, String> {
    let mut bytes = Vec::new();
    let file = File::open(path).map_err(|error| told(path, error))?;
    // A byte more shows that it is longer, even if it has no end.
    let read = file.take(limit as u64 + 1).read_to_end(&mut bytes);
    read.map_err(|error| told(path, error))?;
    if bytes.len() > limit {
        return Err(told(path, format!("it has more than {limit} bytes")));
    }
    Ok(bytes)
}

/// As `read`, for a text of up to 16 MiB.
pub fn read_text(path: &Path) -> Result<String, String> {
    const LONGEST: usize = 1 << 24;
    String::from_utf8(read(path, LONGEST)?).map_err(|_| told(path, "it is no text"))
}

/// The lines that say something, with their numbers from 1 on: neither empty ones nor those that
/// begin with #.
pub fn said_lines(text: &str) -> impl Iterator<Item = (usize, &str)> {
    let says = |line: &str| !line.is_empty() && !line.starts_with('#');
    text.lines().enumerate().map(|(n, line)| (n + 1, line)).filter(move |(_, line)| says(line))
}

/// A file that is being written aside. Dropped, it leaves nothing behind.
///
/// It has the rights of the file that it replaces; a new one is for its owner alone if it holds
/// marked contents.
pub struct Aside {
    path: PathBuf,
    aside: PathBuf,
    file: BufWriter<File>,
}

impl Aside {
    pub fn create(path: &Path, is_secret: bool) -> Result<Aside, String> {
        let replaced = replaced(path).map_err(|error| told(path, error))?;
        let (path, permissions) = match replaced {
            Some((place, permissions)) => (place, Some(permissions)),
            None => (path.to_path_buf(), None),
        };
        let aside = beside(&path).ok_or_else(|| told(&path, "it names no file"))?;
        let mode = if is_secret { 0o600 } else { 0o666 };
        let file = OpenOptions::new().write(true).create_new(true).mode(mode).open(&aside);
        let file = file.map_err(|error| told(&path, error))?;
        let aside = Aside { path, aside, file: BufWriter::new(file) };
        if let Some(permissions) = permissions {
            let set = aside.file.get_ref().set_permissions(permissions);
            set.map_err(|error| told(&aside.path, error))?;
        }
        Ok(aside)
    }

    /// A file that holds these bytes already.
    pub fn filled(path: &Path, bytes: &[u8], is_secret: bool) -> Result<Aside, String> {
        let mut aside = Aside::create(path, is_secret)?;
        aside.write_all(bytes).map_err(|error| told(path, error))?;
        Ok(aside)
    }

    /// All that can fail before the file is put in its place.
    pub fn finish(&mut self) -> Result<(), String> {
        let done = self.file.flush().and_then(|()| self.file.get_ref().sync_all());
        done.map_err(|error| told(&self.path, error))
    }

    pub fn put(self) -> Result<(), String> {
        fs::rename(&self.aside, &self.path).map_err(|error| told(&self.path, error))
    }
}

impl Write for Aside {
    fn write(&mut self, bytes: &[u8]) -> io::Result<usize> {
        self.file.write(bytes)
    }

    fn flush(&mut self) -> io::Result<()> {
        self.file.flush()
    }
}

impl Drop for Aside {
    fn drop(&mut self) {
        // After `put` there is none.
        let _ = fs::remove_file(&self.aside);
    }
}

/// The file itself that is replaced, not a link to it, and its rights. A device would be replaced by
/// a file.
fn replaced(path: &Path) -> io::Result<Option<(PathBuf, Permissions)>> {
    let metadata = match fs::metadata(path) {
        Ok(metadata) => metadata,
        Err(error) if error.kind() == ErrorKind::NotFound => return Ok(None),
        Err(error) => return Err(error),
    };
    if !metadata.is_file() {
        return Err(io::Error::other("it is no plain file"));
    }
    // Putting another file in its place asks for no right to write this one.
    OpenOptions::new().write(true).open(path)?;
    Ok(Some((path.canonicalize()?, metadata.permissions())))
}

/// A name beside the file that no other call has at the same time.
fn beside(path: &Path) -> Option<PathBuf> {
    let mut name = OsString::from(".");
    name.push(path.file_name()?);
    name.push(format!(".{}.new", std::process::id()));
    Some(path.with_file_name(name))
}

/// Writes to standard output. Whoever closed it wants no more.
pub fn print(text: &str) -> Result<(), String> {
    let mut output = io::stdout().lock();
    match output.write_all(text.as_bytes()).and_then(|()| output.flush()) {
        Err(error) if error.kind() != ErrorKind::BrokenPipe => {
            Err(format!("standard output: {error}"))
        }
        _ => Ok(()),
    }
}
