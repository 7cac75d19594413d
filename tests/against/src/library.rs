//! The two C entries, lent buffers to call them with, and the program.

use std::io::Write;
use std::path::PathBuf;
use std::process::{Command, Stdio};

extern "C" {
    fn vlomdar_sketch(plan: u32, list: *const u8, list_length: usize, message: *mut u8, message_length: usize) -> u64;
    fn vlomdar_reconcile(
        message: *const u8,
        message_length: usize,
        home: *const u8,
        home_length: usize,
        theirs: *mut u8,
        theirs_length: usize,
        ours: *mut u8,
        ours_length: usize,
    ) -> u64;
}

/// A buffer between guard bytes. Without guards it is an allocation of its own of exactly its length, so that valgrind sees a byte too far.
#[derive(PartialEq)]
pub struct Lent {
    all: Box<[u8]>,
    guard: usize,
    length: usize,
}

impl Lent {
    /// `guard` bytes stand before and after; an odd number puts the buffer at an odd address.
    pub fn new(contents: &[u8], guard: usize) -> Lent {
        let around = |salt: usize| (0..guard).map(move |i| (i * 37 + salt) as u8);
        let all = around(0x5a).chain(contents.iter().copied()).chain(around(0xa5)).collect();
        Lent { all, guard, length: contents.len() }
    }

    pub fn contents(&self) -> &[u8] {
        &self.all[self.guard..self.guard + self.length]
    }

    fn pointer(&self) -> *const u8 {
        self.contents().as_ptr()
    }

    fn pointer_mut(&mut self) -> *mut u8 {
        self.all[self.guard..].as_mut_ptr()
    }
}

pub fn sketch(plan: u32, list: &Lent, message: &mut Lent) -> u64 {
    let length = message.length;
    unsafe { vlomdar_sketch(plan, list.pointer(), list.length, message.pointer_mut(), length) }
}

pub fn reconcile(message: &Lent, home: &Lent, theirs: &mut Lent, ours: &mut Lent) -> u64 {
    let (theirs_length, ours_length) = (theirs.length, ours.length);
    unsafe {
        vlomdar_reconcile(
            message.pointer(),
            message.length,
            home.pointer(),
            home.length,
            theirs.pointer_mut(),
            theirs_length,
            ours.pointer_mut(),
            ours_length,
        )
    }
}

/// The program night_report.
pub struct Program(PathBuf);

impl Program {
    /// Where VLOMDAR_REPORT says, else where `rt check night_report` puts it; none if VLOMDAR_REPORT is `none`.
    pub fn find() -> Result<Option<Program>, String> {
        let path = match std::env::var("VLOMDAR_REPORT") {
            Ok(path) if path == "none" => return Ok(None),
            Ok(path) => PathBuf::from(path),
            Err(_) => PathBuf::from(env!("CARGO_MANIFEST_DIR")).join("../../target/bin/night_report"),
        };
        match path.canonicalize() {
            Ok(path) => Ok(Some(Program(path))),
            Err(error) => Err(format!("no program {}: {error}; VLOMDAR_REPORT names another, or is `none`", path.display())),
        }
    }

    /// What it writes for an input that comes in pieces of at most so many bytes.
    pub fn run(&self, input: &[u8], piece: usize) -> Result<Vec<u8>, String> {
        let mut child = Command::new(&self.0).stdin(Stdio::piped()).stdout(Stdio::piped()).spawn().map_err(|e| e.to_string())?;
        let mut to = child.stdin.take().unwrap();
        for part in input.chunks(piece.max(1)) {
            // It may stop reading once the input is too long.
            if to.write_all(part).is_err() {
                break;
            }
        }
        drop(to);
        let output = child.wait_with_output().map_err(|e| e.to_string())?;
        match output.status.code() {
            Some(_) => Ok(output.stdout),
            None => Err(format!("ended by a signal: {}", output.status)),
        }
    }
}
