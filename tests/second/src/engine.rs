//! The engine's static library, and the program `breakers`.

use crate::calls::{Calls, Command, Given, Printed, Values};
use std::cell::RefCell;
use std::collections::hash_map::DefaultHasher;
use std::collections::HashMap;
use std::hash::{Hash, Hasher};
use std::io::{Read, Write};
use std::path::{Path, PathBuf};
use std::process::{self, Stdio};

extern "C" {
    fn jubaxendi_check(file: *const u8, file_length: usize, answer: *mut u64) -> u64;
    fn jubaxendi_impact(file: *const u8, file_length: usize, line: u64, answer: *mut u64) -> u64;
    fn jubaxendi_total(file: *const u8, file_length: usize, answer: *mut u64) -> u64;
    fn jubaxendi_search(file: *const u8, file_length: usize, members: *mut u64, members_length: usize, answer: *mut u64) -> u64;
    fn jubaxendi_report(file: *const u8, file_length: usize, text: *mut u8, text_length: usize, answer: *mut u64) -> u64;
    fn jubaxendi_segments(file: *const u8, file_length: usize, table: *mut u64, table_length: usize, answer: *mut u64) -> u64;
    fn jubaxendi_ceiling(places: u64, additions: u64, answer: *mut u64) -> u64;
}

/// What was printed, by a hash of the file, the command and how the file was given.
type Kept = HashMap<(u64, Command, Given), Printed>;

/// The engine, with its program if there is one.
pub struct Engine {
    pub program: Option<PathBuf>,
    /// Where a file that the program is given by its name is written
    pub named: PathBuf,
    /// What the program printed, if it is to be run only once on a file, however often it is asked
    pub kept: Option<RefCell<Kept>>,
}

impl Engine {
    /// Runs the program. Behind standard output stands the status, should it not be 0.
    fn run(&self, program: &Path, file: &[u8], command: Command, given: Given) -> Printed {
        let mut run = process::Command::new(program);
        run.args(command.words()).stdin(Stdio::null()).stdout(Stdio::piped()).stderr(Stdio::piped());
        match given {
            _ if !command.reads() => {}
            Given::Input { .. } => {
                run.stdin(Stdio::piped());
            }
            Given::Named => {
                // A new file each time: some file systems write one that is made anew in place to the disk at once.
                let _ = std::fs::remove_file(&self.named);
                std::fs::write(&self.named, file).unwrap_or_else(|e| panic!("{}: {e}", self.named.display()));
                run.arg(&self.named);
            }
        }
        let mut child = run.spawn().unwrap_or_else(|e| panic!("{}: {e}", program.display()));
        let stdin = child.stdin.take();
        let (mut text, mut words) = (Vec::new(), Vec::new());
        std::thread::scope(|scope| {
            if let (Some(mut stdin), Given::Input { piece }) = (stdin, given) {
                scope.spawn(move || {
                    for part in file.chunks(piece.max(file.len() / 1_000 + 1)) {
                        // The program may stop reading a file that is too long.
                        if stdin.write_all(part).is_err() {
                            break;
                        }
                        if part.len() < file.len() {
                            std::thread::yield_now();
                        }
                    }
                });
            }
            let _ = child.stdout.take().expect("standard output is a pipe").read_to_end(&mut text);
            let _ = child.stderr.take().expect("standard error is a pipe").read_to_end(&mut words);
        });
        let status = child.wait().expect("the program ends");
        if !status.success() {
            text.extend_from_slice(format!("[{status}]").as_bytes());
        }
        Printed { text, words: Some(words) }
    }
}

// SAFETY of each call: the pointers and lengths are those of slices that live through the call, and `answer` has eight numbers.
impl Calls for Engine {
    fn check(&self, file: &[u8], answer: &mut Values) -> u64 {
        unsafe { jubaxendi_check(file.as_ptr(), file.len(), answer.as_mut_ptr()) }
    }

    fn impact(&self, file: &[u8], line: u64, answer: &mut Values) -> u64 {
        unsafe { jubaxendi_impact(file.as_ptr(), file.len(), line, answer.as_mut_ptr()) }
    }

    fn total(&self, file: &[u8], answer: &mut Values) -> u64 {
        unsafe { jubaxendi_total(file.as_ptr(), file.len(), answer.as_mut_ptr()) }
    }

    fn search(&self, file: &[u8], members: &mut [u64], answer: &mut Values) -> u64 {
        unsafe { jubaxendi_search(file.as_ptr(), file.len(), members.as_mut_ptr(), members.len(), answer.as_mut_ptr()) }
    }

    fn report(&self, file: &[u8], text: &mut [u8], answer: &mut Values) -> u64 {
        unsafe { jubaxendi_report(file.as_ptr(), file.len(), text.as_mut_ptr(), text.len(), answer.as_mut_ptr()) }
    }

    fn segments(&self, file: &[u8], table: &mut [u64], answer: &mut Values) -> u64 {
        unsafe { jubaxendi_segments(file.as_ptr(), file.len(), table.as_mut_ptr(), table.len(), answer.as_mut_ptr()) }
    }

    fn ceiling(&self, places: u64, additions: u64, answer: &mut Values) -> u64 {
        unsafe { jubaxendi_ceiling(places, additions, answer.as_mut_ptr()) }
    }

    fn program(&self, file: &[u8], command: Command, given: Given) -> Option<Printed> {
        let program = self.program.as_ref()?;
        let Some(kept) = &self.kept else { return Some(self.run(program, file, command, given)) };
        let mut hasher = DefaultHasher::new();
        file.hash(&mut hasher);
        let key = (hasher.finish(), command, given);
        let mut kept = kept.borrow_mut();
        Some(kept.entry(key).or_insert_with(|| self.run(program, file, command, given)).clone())
    }
}
