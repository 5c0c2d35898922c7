//! All that a call writes. Every file is written aside before one is put in its place, so that a
//! call that fails writes none.

use std::path::{Path, PathBuf};

use crate::files::{self, Aside};
use crate::machine::Machine;
use crate::options::Options;
use crate::state_file;
use crate::trace::Trace;

pub struct Outputs<'a> {
    /// The report in words.
    pub words: String,
    /// The report for machines.
    pub machines: Option<String>,
    pub picture: Option<String>,
    pub machine: &'a Machine,
}

impl Outputs<'_> {
    pub fn write(&self, options: &Options, trace: Option<Trace>) -> Result<(), String> {
        let mut files = self.files(options)?;
        if let Some(trace) = trace {
            files.extend(trace.end()?);
        }
        for file in &mut files {
            file.finish()?;
        }
        self.print(options)?;
        files.into_iter().try_for_each(Aside::put)
    }

    fn files(&self, options: &Options) -> Result<Vec<Aside>, String> {
        let Machine { state, memory, marks } = self.machine;
        let state = || state_file::written(state, marks, memory.len()).into_bytes();
        let bytes = |text: &Option<String>| text.clone().unwrap_or_default().into_bytes();
        let mut files = Vec::new();
        let mut add = |path: &Option<PathBuf>, bytes: &dyn Fn() -> Vec<u8>, is_secret| match path
            .as_deref()
            .filter(|path| !is_standard(path))
        {
            Some(path) => Aside::filled(path, &bytes(), is_secret).map(|file| files.push(file)),
            None => Ok(()),
        };
        add(&options.json, &|| bytes(&self.machines), false)?;
        add(&options.plot, &|| bytes(&self.picture), false)?;
        add(&options.save_state, &state, true)?;
        add(&options.save_memory, &|| memory.clone(), true)?;
        Ok(files)
    }

    /// The words, unless something else goes to standard output.
    fn print(&self, options: &Options) -> Result<(), String> {
        let goes_out = |path: &Option<PathBuf>| path.as_deref().is_some_and(is_standard);
        match &self.machines {
            Some(machines) if goes_out(&options.json) => files::print(machines),
            _ if goes_out(&options.trace) => Ok(()),
            _ => files::print(&self.words),
        }
    }
}

/// A path that means standard output, where that may be named.
fn is_standard(path: &Path) -> bool {
    path == Path::new("-")
}
