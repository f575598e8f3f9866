//! What the program asks of its system, over the C library. Written by hand in place of the source's file, which takes
//! it from the kit. The program begins in C's `main`: Rust's own start opens closed streams anew, and allocates, and
//! ends the process if memory is exhausted.

use alloc::string::String;
use alloc::vec::Vec;
use core::ffi::{CStr, c_char, c_int, c_void};
use support::growth::{Allocate, Grow};
use support::io::{self, Error, ErrorKind, Read, Write};

// Each call below passes the pointer and the length of one slice, or a text that ends with a zero byte.
unsafe extern "C" {
    fn read_or_ask(to: *mut c_void, len: usize, is_new: c_int) -> isize;
    fn read(stream: c_int, to: *mut c_void, len: usize) -> isize;
    fn write(stream: c_int, from: *const c_void, len: usize) -> isize;
    fn open(name: *const c_char, flags: c_int, ...) -> c_int;
    fn close(stream: c_int) -> c_int;
    fn isatty(stream: c_int) -> c_int;
    fn getentropy(to: *mut c_void, len: usize) -> c_int;
    fn signal(number: c_int, action: usize) -> usize;
    #[cfg_attr(target_env = "gnu", link_name = "__xpg_strerror_r")]
    fn strerror_r(error: c_int, text: *mut c_char, len: usize) -> c_int;
    fn __errno_location() -> *mut c_int;
}

// Linux's, and those of POSIX.
const O_RDONLY: c_int = 0;
const O_CLOEXEC: c_int = 0o2000000;
const EINTR: c_int = 4;
const SIGPIPE: c_int = 13;
const SIG_IGN: usize = 1;

// C's `main` over the program's, with its arguments. Writes to a pipe without a reader fail, in place of a signal.
#[cfg(not(test))]
#[unsafe(export_name = "main")]
unsafe extern "C" fn c_main(count: c_int, words: *const *const c_char) -> c_int {
    unsafe { signal(SIGPIPE, SIG_IGN) };
    let count = usize::try_from(count).unwrap_or(0);
    let words = unsafe { support::slice(words, count) };
    crate::main(HostRuntime { words }).0.into()
}

/// The exit status.
pub struct ExitCode(u8);

impl From<u8> for ExitCode {
    fn from(status: u8) -> ExitCode {
        ExitCode(status)
    }
}

/// The process's streams, arguments, files and random bytes.
pub struct HostRuntime {
    words: &'static [*const c_char], // C's, which are there as long as the process
}

/// The standard input, which asks for the password if it is a terminal (bindings/cli/terminal.c).
pub struct Input {
    is_new: bool,
}

/// An output without a buffer.
pub struct Stream(c_int);

// A file, which is closed when it is dropped.
struct File(c_int);

impl Drop for File {
    fn drop(&mut self) {
        unsafe { close(self.0) };
    }
}

fn system_error() -> Error {
    let number = unsafe { *__errno_location() };
    let is_interrupted = number == EINTR;
    Error::of_system(if is_interrupted { ErrorKind::Interrupted } else { ErrorKind::Other }, number)
}

fn counted(result: isize) -> io::Result<usize> {
    usize::try_from(result).map_err(|_| system_error())
}

// Repeats a call that a signal interrupted.
fn again(mut call: impl FnMut() -> isize) -> io::Result<usize> {
    loop {
        match counted(call()) {
            Err(error) if error.kind() == ErrorKind::Interrupted => {}
            ended => return ended,
        }
    }
}

impl Read for Input {
    fn read(&mut self, bytes: &mut [u8]) -> io::Result<usize> {
        again(|| unsafe { read_or_ask(bytes.as_mut_ptr().cast(), bytes.len(), self.is_new.into()) })
    }
}

impl Read for File {
    fn read(&mut self, bytes: &mut [u8]) -> io::Result<usize> {
        again(|| unsafe { read(self.0, bytes.as_mut_ptr().cast(), bytes.len()) })
    }
}

impl Write for Stream {
    fn write(&mut self, bytes: &[u8]) -> io::Result<usize> {
        counted(unsafe { write(self.0, bytes.as_ptr().cast(), bytes.len()) })
    }

    fn flush(&mut self) -> io::Result<()> {
        Ok(())
    }
}

impl HostRuntime {
    /// The password is a new one, which is asked for twice, if the first argument that is no option is `hash`.
    pub fn stdin(&self) -> Input {
        let command = self.words().find(|word| !word.to_bytes().starts_with(b"--"));
        Input {
            is_new: command == Some(c"hash"),
        }
    }

    pub fn stdout(&self) -> Stream {
        Stream(1)
    }

    pub fn stderr(&self) -> Stream {
        Stream(2)
    }

    // The arguments after the program's name.
    fn words(&self) -> impl Iterator<Item = &CStr> {
        self.words.iter().skip(1).map(|word| unsafe { CStr::from_ptr(*word) })
    }
}

/// Returns the arguments after the program's name, or an error if one is not UTF-8.
pub fn words(rt: &HostRuntime) -> io::Result<Vec<String>> {
    let mut words = Vec::new();
    for word in rt.words() {
        let word = word.to_str().map_err(|_| ErrorKind::InvalidData)?;
        let mut copy = String::checked_with_capacity(word.len())?;
        copy.push_str(word);
        words.checked_push(copy)?;
    }
    Ok(words)
}

/// Returns whether this stream is a terminal.
pub fn is_terminal(stream: &Stream) -> bool {
    unsafe { isatty(stream.0) == 1 }
}

/// Fills `bytes`, at most 256, with random bytes of the system.
pub fn fill_random(_: &HostRuntime, bytes: &mut [u8]) -> io::Result<()> {
    match unsafe { getentropy(bytes.as_mut_ptr().cast(), bytes.len()) } {
        0 => Ok(()),
        _ => Err(system_error()),
    }
}

fn open_file(name: &str) -> io::Result<File> {
    let mut bytes = Vec::checked_with_capacity(name.len() + 1)?;
    bytes.extend_from_slice(name.as_bytes());
    bytes.push(0);
    let name = CStr::from_bytes_with_nul(&bytes).map_err(|_| ErrorKind::Other)?;
    match unsafe { open(name.as_ptr(), O_RDONLY | O_CLOEXEC) } {
        stream @ 0.. => Ok(File(stream)),
        _ => Err(system_error()),
    }
}

/// Returns the text of the file with this name, or `None` if it has more than `max_len` bytes.
pub fn read_text(_: &HostRuntime, name: &str, max_len: u64) -> io::Result<Option<String>> {
    let (mut file, mut text, mut room) = (open_file(name)?, Vec::new(), [0; 512]);
    while text.len() as u64 <= max_len {
        match file.read(&mut room)? {
            0 => return String::from_utf8(text).map(Some).map_err(|_| ErrorKind::InvalidData.into()),
            count => text.checked_extend_from_slice(&room[..count])?,
        }
    }
    Ok(None)
}

/// Writes a line to the standard error, which says why the file with this name can't be read.
pub fn report(rt: &HostRuntime, name: &str, error: &Error) {
    let (mut output, name) = (rt.stderr(), name.escape_debug());
    let _ = match (error.raw_os_error(), error.kind()) {
        (Some(number), _) => write!(output, "{name}: {} (os error {number})\n", Reason::of(number).text()),
        (None, ErrorKind::InvalidData) => write!(output, "{name}: stream did not contain valid UTF-8\n"),
        (None, ErrorKind::OutOfMemory) => write!(output, "{name}: out of memory\n"),
        (None, _) => write!(output, "{name}: not a name of a file\n"),
    };
}

// The system's text of an error.
struct Reason([u8; 128]);

impl Reason {
    fn of(number: c_int) -> Reason {
        let mut reason = Reason([0; 128]);
        unsafe { strerror_r(number, reason.0.as_mut_ptr().cast(), reason.0.len()) };
        reason
    }

    fn text(&self) -> &str {
        CStr::from_bytes_until_nul(&self.0).map_or(Ok(""), CStr::to_str).unwrap_or("")
    }
}
