//! The thread that writes what was entered.

use super::RecorderFault;
use super::journal::{Entry, Journal};
use super::spelling;
use std::fs::{File, OpenOptions};
use std::io::Write;
use std::path::{Path, PathBuf};

// So much is written at a time.
const PIECE: usize = 256 << 10;

// A file that wasn't there, and what isn't in it yet.
#[derive(Debug)]
struct Sheet {
    file: File,
    path: PathBuf,
    text: Vec<u8>,
}

impl Sheet {
    fn make(path: &Path) -> Result<Sheet, RecorderFault> {
        let made = OpenOptions::new().write(true).create_new(true).open(path);
        let file = made.map_err(|it| RecorderFault::file(path, &it))?;
        Ok(Sheet { file, path: path.to_path_buf(), text: Vec::new() })
    }

    fn write(&mut self) -> Result<(), RecorderFault> {
        let written = self.file.write_all(&self.text);
        self.text.clear();
        written.map_err(|it| RecorderFault::file(&self.path, &it))
    }
}

// A script and its answers.
#[derive(Debug)]
pub(super) struct Writer {
    script: Sheet,
    answers: Sheet,
    // How many lines the script has.
    lines: u64,
}

// Says that the writer has ended, however it ends.
struct Leaves<'a>(&'a Journal);

impl Drop for Leaves<'_> {
    fn drop(&mut self) {
        self.0.leave();
    }
}

impl Writer {
    // Of two files that aren't there, the first of them with this header.
    pub(super) fn make(script: &Path, answers: &Path, header: &str) -> Result<Writer, RecorderFault> {
        let (mut script, answers) = (Sheet::make(script)?, Sheet::make(answers)?);
        script.text.extend_from_slice(header.as_bytes());
        script.write()?;
        Ok(Writer { script, answers, lines: 1 })
    }

    pub(super) fn run(mut self, journal: &Journal) {
        let _leaves = Leaves(journal);
        let mut entries = Vec::new();
        while let Some(()) = journal.next(&mut entries) {
            let written = self.write_all(&entries);
            journal.wrote(&mut entries, written);
        }
    }

    fn write_all(&mut self, entries: &[Entry]) -> Result<(), RecorderFault> {
        for entry in entries {
            self.lines += 1;
            self.spell(entry);
            if self.script.text.len().max(self.answers.text.len()) > PIECE {
                self.write()?;
            }
        }
        self.write()
    }

    // An answer is never there before its line.
    fn write(&mut self) -> Result<(), RecorderFault> {
        self.script.write()?;
        self.answers.write()
    }

    fn spell(&mut self, entry: &Entry) {
        let (script, answers) = (&mut self.script.text, &mut self.answers.text);
        match entry {
            Entry::Event(call, told) => {
                spelling::call(script, call);
                spelling::number(answers, self.lines);
                answers.push(b' ');
                spelling::told(answers, told);
                answers.push(b'\n');
            }
            Entry::LeftOut(call, why) => {
                script.extend_from_slice(format!("# left out, {why}: ").as_bytes());
                spelling::call(script, call);
            }
            Entry::End(why) => script.extend_from_slice(format!("# the record ends: {why}").as_bytes()),
        }
        script.push(b'\n');
    }
}
