//! A file with an image. It is written aside and then put in its place, so that a failure on the
//! way leaves it as it was.

use std::ffi::OsString;
use std::fs::{self, File, Metadata, OpenOptions, Permissions};
use std::io::{self, ErrorKind, Read, Write};
use std::os::unix::fs::MetadataExt;
use std::path::{Path, PathBuf};

/// No longer image is read.
pub const LONGEST_IMAGE: usize = 1 << 24;

/// The file, and what it held if there is one.
pub struct ImageFile {
    /// Without links: it is the file itself that is replaced, not a link to it.
    path: PathBuf,
    old: Option<(Vec<u8>, Permissions)>,
}

impl ImageFile {
    /// Reads the image. One that may not be written is an error, and so is the source itself.
    pub fn open(path: &Path, source: &Path) -> io::Result<ImageFile> {
        let metadata = match fs::metadata(path) {
            Ok(metadata) => metadata,
            Err(error) if error.kind() == ErrorKind::NotFound => return ImageFile::missing(path),
            Err(error) => return Err(error),
        };
        // A device would be replaced by a file.
        if !metadata.is_file() {
            return Err(io::Error::other("an image is a plain file"));
        }
        if is_same(&metadata, &fs::metadata(source)?) {
            return Err(io::Error::other("it is the source"));
        }
        // Putting another file in its place asks for no right to write this one.
        let file = OpenOptions::new().read(true).write(true).open(path)?;
        let mut bytes = Vec::new();
        file.take(LONGEST_IMAGE as u64 + 1).read_to_end(&mut bytes)?;
        if bytes.len() > LONGEST_IMAGE {
            return Err(io::Error::other("an image has up to 16 MiB"));
        }
        Ok(ImageFile { path: path.canonicalize()?, old: Some((bytes, metadata.permissions())) })
    }

    /// A file that is still to be made.
    fn missing(path: &Path) -> io::Result<ImageFile> {
        if path.symlink_metadata().is_ok() {
            return Err(io::Error::other("a link that leads to no file"));
        }
        Ok(ImageFile { path: path.to_path_buf(), old: None })
    }

    /// The bytes of a file that is there.
    pub fn bytes(&self) -> Option<&[u8]> {
        self.old.as_ref().map(|(bytes, _)| &bytes[..])
    }

    /// Puts these bytes in the place of the old ones.
    pub fn write(&self, bytes: &[u8]) -> io::Result<()> {
        let aside = self.aside().ok_or_else(|| io::Error::other("it names no file"))?;
        let mut file = OpenOptions::new().write(true).create_new(true).open(&aside)?;
        let written = self.fill(&mut file, bytes).and_then(|()| fs::rename(&aside, &self.path));
        if written.is_err() {
            // That error is the one to tell.
            let _ = fs::remove_file(&aside);
        }
        written
    }

    fn fill(&self, file: &mut File, bytes: &[u8]) -> io::Result<()> {
        if let Some((_, permissions)) = &self.old {
            file.set_permissions(permissions.clone())?;
        }
        file.write_all(bytes)?;
        file.sync_all()
    }

    /// A name beside the file that no other call has at the same time.
    fn aside(&self) -> Option<PathBuf> {
        let mut name = OsString::from(".");
        name.push(self.path.file_name()?);
        name.push(format!(".{}.new", std::process::id()));
        Some(self.path.with_file_name(name))
    }
}

fn is_same(one: &Metadata, other: &Metadata) -> bool {
    (one.dev(), one.ino()) == (other.dev(), other.ino())
}
