//! Answers lines as am-dispatch does, in process: rustc -O play.rs -L LIBRARY -l static=fentdolmen
use std::io::{self, BufRead, Read, Write};

/// The struct of fentdolmen.h. All zero is closed.
#[repr(C)]
struct Handle {
    is_open: u64,
    at: *mut u8,
}

extern "C" {
    fn fentdolmen_open(f: *mut Handle, seed: u64) -> i32;
    fn fentdolmen_call(f: *mut Handle, line: *const u8, length: usize, into: *mut u8, room: usize) -> usize;
    fn fentdolmen_read(f: *mut Handle, from: usize, into: *mut u8, room: usize) -> usize;
    fn fentdolmen_close(f: *mut Handle) -> i32;
}

/// A board that answers lines. Its pointer keeps it on the thread that opened it.
pub struct Board {
    handle: Handle,
    answer: Vec<u8>,
}

impl Board {
    /// Opens a board, whose hashes start from this seed. None without memory.
    pub fn open(seed: u64) -> Option<Board> {
        let mut handle = Handle { is_open: 0, at: std::ptr::null_mut() };
        // SAFETY: the handle is closed, and nobody else has it.
        let status = unsafe { fentdolmen_open(&mut handle, seed) };
        (status == 0).then(|| Board { handle, answer: vec![0; 65_536] })
    }

    /// Returns the answer to a line, with its line feed.
    pub fn ask(&mut self, line: &[u8]) -> &[u8] {
        let (into, room) = (self.answer.as_mut_ptr(), self.answer.len());
        // SAFETY: the buffers are apart and of these lengths, and `self` is borrowed alone.
        let length = unsafe { fentdolmen_call(&mut self.handle, line.as_ptr(), line.len(), into, room) };
        if length > self.answer.len() {
            self.answer.resize(length, 0);
            // SAFETY: as above.
            unsafe { fentdolmen_read(&mut self.handle, 0, self.answer.as_mut_ptr(), length) };
        }
        &self.answer[..length]
    }
}

impl Drop for Board {
    fn drop(&mut self) {
        // SAFETY: nobody uses the handle after this.
        unsafe { fentdolmen_close(&mut self.handle) };
    }
}

fn main() -> io::Result<()> {
    let mut seed = [0; 8];
    std::fs::File::open("/dev/urandom")?.read_exact(&mut seed)?;
    let mut board = Board::open(u64::from_le_bytes(seed)).ok_or(io::ErrorKind::OutOfMemory)?;
    let (mut input, mut output) = (io::stdin().lock(), io::BufWriter::new(io::stdout().lock()));
    let mut line = Vec::new();
    while input.read_until(b'\n', &mut line)? > 0 {
        output.write_all(board.ask(line.strip_suffix(b"\n").unwrap_or(&line)))?;
        line.clear();
    }
    output.flush()
}
