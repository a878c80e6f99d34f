//! Each group's memory limits, from a snapshot on standard input: limits.c in Rust.
//!
//!     rustc --edition 2024 limits.rs -l cgfile
//!     LC_ALL=C grep -rZ '' /sys/fs/cgroup 2> /dev/null | ./limits
use std::io::{self, Read, Write};
use std::process::ExitCode;

const DONE: u32 = 0;
const CUT: u32 = 2;
const NO_ROOM: u32 = 4;
const NO_MEMORY: u32 = 5;
const MAX: u32 = 8;
const MORE: u32 = 11;
const END: u32 = 12;

unsafe extern "C" {
    fn cgfile_number(
        profile: u32, name: *const u8, name_len: usize, text: *const u8, text_len: usize, key: *const u8,
        key_len: usize, number: &mut u64, at: &mut u64,
    ) -> u32;
    fn cgfile_first(
        profile: u32, bytes: *const u8, bytes_len: usize, is_end: bool, is_json: bool, out: *mut u8, out_len: usize,
        used: &mut usize, taken: &mut usize, path_len: &mut usize, at: &mut u64,
    ) -> u32;
}

/// The number of a file of one number or of one limit; the status says whether it has one.
fn number(name: &[u8], text: &[u8]) -> (u32, u64) {
    let (mut number, mut at) = (0, 0);
    let key: &[u8] = b"";
    // SAFETY: each pointer and length are those of a slice, and no slice's pointer is null.
    let status = unsafe {
        cgfile_number(
            1, name.as_ptr(), name.len(), text.as_ptr(), text.len(), key.as_ptr(), key.len(), &mut number, &mut at,
        )
    };
    (status, number)
}

/// What a stream begins with.
enum First {
    Entry { path_len: usize, taken: usize, text_len: usize },
    NoRoom(usize),
    More,
    End,
    Cut(u64),
    Stopped(u64),
    OutOfMemory,
}

/// The first entry of a stream of which these bytes came, its file's text in the buffer.
fn first(bytes: &[u8], is_end: bool, out: &mut [u8]) -> First {
    let (mut used, mut taken, mut path_len, mut at) = (0, 0, 0, 0);
    // SAFETY: as above; the buffer is borrowed mutably, so nothing overlaps it.
    let status = unsafe {
        cgfile_first(
            1, bytes.as_ptr(), bytes.len(), is_end, false, out.as_mut_ptr(), out.len(), &mut used, &mut taken, &mut path_len,
            &mut at,
        )
    };
    match status {
        DONE => First::Entry { path_len, taken, text_len: used },
        NO_ROOM => First::NoRoom(used),
        MORE => First::More,
        END => First::End,
        CUT => First::Cut(at),
        NO_MEMORY => First::OutOfMemory,
        _ => First::Stopped(at),
    }
}

const LIMITS: [&str; 7] = [
    "memory.min", "memory.low", "memory.high", "memory.max", "memory.swap.high", "memory.swap.max", "memory.zswap.max",
];

/// Prints the limit of a file, if it is one.
fn print_limit(out: &mut impl Write, path: &[u8], text: &[u8]) -> io::Result<()> {
    let name = path.rsplit(|&byte| byte == b'/').next().unwrap_or(path);
    if !LIMITS.iter().any(|limit| limit.as_bytes() == name) {
        return Ok(());
    }
    let told = match number(name, text) {
        (DONE, number) => number.to_string(),
        (MAX, _) => "max".to_string(),
        _ => return Ok(()),
    };
    out.write_all(path)?;
    writeln!(out, ": {told}")
}

fn main() -> io::Result<ExitCode> {
    let (mut input, mut out) = (io::stdin().lock(), io::BufWriter::new(io::stdout().lock()));
    let (mut bytes, mut text, mut piece) = (Vec::new(), vec![0; 4096], vec![0; 65536]);
    let (mut dropped, mut is_end) = (0, false);
    loop {
        let mut start = 0;
        loop {
            match first(&bytes[start..], is_end, &mut text) {
                First::Entry { path_len, taken, text_len } => {
                    print_limit(&mut out, &bytes[start..start + path_len], &text[..text_len])?;
                    start += taken;
                }
                First::NoRoom(wanted) => text.resize(wanted, 0),
                First::More => break,
                First::End => return out.flush().map(|()| ExitCode::SUCCESS),
                First::Cut(at) => {
                    eprintln!("cut at {}", dropped + start as u64 + at);
                    return out.flush().map(|()| ExitCode::from(1));
                }
                First::Stopped(at) => {
                    eprintln!("stopped at {}", dropped + start as u64 + at);
                    return out.flush().map(|()| ExitCode::from(1));
                }
                First::OutOfMemory => {
                    eprintln!("out of memory");
                    return out.flush().map(|()| ExitCode::from(4));
                }
            }
        }
        dropped += start as u64;
        bytes.drain(..start);
        let wanted = bytes.len().max(piece.len());
        piece.resize(wanted, 0);
        let came = input.read(&mut piece)?;
        bytes.extend_from_slice(&piece[..came]);
        is_end = came == 0;
    }
}
