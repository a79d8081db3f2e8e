//! The proved core of photofleet, as the judge of another sync engine's tests.
//!
//! A [`Fleet`] takes a script line by line and gives the text of the right report on each; [`plain`] runs a whole script.
//! `docs/FORMATS.md` of the repository has the texts of scripts and reports, and `docs/EMBEDDING.md` shows how one tests
//! with them.
//!
//! ```
//! use photofleet::{Error, Fleet};
//!
//! let mut fleet = Fleet::open("device phone all\ndevice hall rating >= 4")?;
//! fleet.give("new phone 1 5 2026-07-01 beach")?;
//! let report = fleet.give("pull hall phone")?;
//! assert_eq!(report, "2 pulled taken 1 handed 0 notices 0 dropped 0 learned yes\n");
//!
//! // A question changes nothing.
//! assert_eq!(fleet.ask("list hall")?, "3 list hall store 1 out 0\n  store 1 phone:1 rating 5 day 2026-07-01 words beach\n");
//!
//! // A line that is refused leaves the fleet as it was.
//! let Err(Error::Script(fault)) = fleet.give("list attic") else { panic!() };
//! assert_eq!((fault.number, fault.line), (8, Some(5)));
//! # Ok::<(), Error>(())
//! ```
#![deny(missing_docs)]

use std::cell::UnsafeCell;
use std::fmt;

/// A session of the library. It begins closed, as zeros.
#[repr(C)]
struct Session {
    at: *mut u8,
    is_open: bool,
}

type Call = unsafe extern "C" fn(*mut Session, *const u8, usize, *mut u8, usize, *mut usize) -> u8;

unsafe extern "C" {
    fn photofleet_plain(script: *const u8, length: usize, out: *mut u8, out_length: usize, written: *mut usize) -> u8;
    fn photofleet_open(at: *mut Session, lines: *const u8, length: usize, out: *mut u8, out_length: usize, written: *mut usize) -> u8;
    fn photofleet_give(at: *mut Session, line: *const u8, length: usize, out: *mut u8, out_length: usize, written: *mut usize) -> u8;
    fn photofleet_ask(at: *mut Session, line: *const u8, length: usize, out: *mut u8, out_length: usize, written: *mut usize) -> u8;
    fn photofleet_close(at: *mut Session) -> u8;
}

const DONE: u8 = 0;
const BAD_SCRIPT: u8 = 3;
const NO_MEMORY: u8 = 4;
const TOO_SMALL: u8 = 5;

/// How many bytes a text is offered at first.
const ROOM: usize = 4096;

/// Why a line or a script was not taken.
#[derive(Clone, Debug, PartialEq, Eq)]
pub enum Error {
    /// The lines are no script.
    Script(Fault),
    /// The library was refused memory, while it read or while it ran.
    NoMemory,
    /// The library answered with a status that this crate doesn't know.
    Status(u8),
}

/// A fault of a script. `docs/FORMATS.md` says what each means, and how a line is mended.
#[derive(Clone, Debug, PartialEq, Eq)]
pub struct Fault {
    /// The number of the fault: 8 of F8.
    pub number: u8,
    /// The number of the line that has it, from 1; none of a fault of the whole text.
    pub line: Option<usize>,
    /// What the library says of it: `script fault: line 3: F8 UnknownDevice`.
    pub text: String,
}

impl Fault {
    fn of(text: &str) -> Option<Fault> {
        let text = text.trim_end();
        let said = text.strip_prefix("script fault: ")?;
        let (line, fault) = match said.strip_prefix("line ") {
            Some(rest) => {
                let (line, fault) = rest.split_once(": ")?;
                (Some(line.parse().ok()?), fault)
            }
            None => (None, said),
        };
        let (code, _) = fault.split_once(' ')?;
        Some(Fault { number: code.strip_prefix('F')?.parse().ok()?, line, text: text.to_string() })
    }

    /// The fault's name: `UnknownDevice`.
    pub fn name(&self) -> &str {
        self.text.rsplit(' ').next().unwrap_or_default()
    }
}

impl fmt::Display for Error {
    fn fmt(&self, f: &mut fmt::Formatter<'_>) -> fmt::Result {
        match self {
            Error::Script(fault) => f.write_str(&fault.text),
            Error::NoMemory => f.write_str("memory was refused"),
            Error::Status(status) => write!(f, "the library answered with status {status}"),
        }
    }
}

impl std::error::Error for Error {}

/// Makes a call as often as its text needs: once more where it had no room.
fn text_of(mut call: impl FnMut(&mut [u8], &mut usize) -> u8) -> Result<String, Error> {
    let mut out = vec![0; ROOM];
    let mut written = 0;
    let mut status = call(&mut out, &mut written);
    if status == TOO_SMALL {
        out.resize(written, 0);
        status = call(&mut out, &mut written);
    }
    out.truncate(written);
    let text = String::from_utf8_lossy(&out).into_owned();
    match status {
        DONE => Ok(text),
        BAD_SCRIPT => Err(match Fault::of(&text) {
            Some(fault) if fault.number == 18 => Error::NoMemory,
            Some(fault) => Error::Script(fault),
            None => Error::Status(status),
        }),
        NO_MEMORY => Err(Error::NoMemory),
        _ => Err(Error::Status(status)),
    }
}

/// The texts of the right reports on a script, as the program `photofleet plain` prints them.
///
/// ```
/// let said = photofleet::plain("device cam all\nnew cam 7 5 2024-05-01 sun\n")?;
/// assert_eq!(said, "1 made cam:1 store\n");
/// # Ok::<(), photofleet::Error>(())
/// ```
pub fn plain(script: &str) -> Result<String, Error> {
    // SAFETY: the pointers are those of a slice, of another one that is lent for writing alone, and of a number.
    text_of(|out, written| unsafe { photofleet_plain(script.as_ptr(), script.len(), out.as_mut_ptr(), out.len(), written) })
}

/// Devices that are driven line by line. It closes itself.
///
/// A fleet can be sent to another thread, and can't be shared by two. What it owns is memory that any thread may use and
/// free, the library keeps nothing for a thread or beside its fleets, and whoever owns the fleet is the only one who calls it.
/// But no two calls on one fleet may run at once, and [`Fleet::ask`] lends it alone, so it isn't `Sync`:
///
/// ```compile_fail
/// fn is_sync<T: Sync>() {}
/// is_sync::<photofleet::Fleet>();
/// ```
pub struct Fleet {
    // The library is lent it for writing, also by `ask`.
    session: UnsafeCell<Session>,
}

// SAFETY: `at` points to memory of the fleet's own, which the library took by malloc and any thread may free. The library
// has no memory of a thread's own (tools/gate/check-bindings looks), and the calls on one fleet come one after another: those of
// `&mut self` by that, those of `&self` since no two threads have it.
unsafe impl Send for Fleet {}

impl Fleet {
    /// Opens a fleet with lines that are a script by themselves, mostly declarations.
    pub fn open(lines: &str) -> Result<Fleet, Error> {
        let fleet = Fleet { session: UnsafeCell::new(Session { at: std::ptr::null_mut(), is_open: false }) };
        // (an LF at the end would be one empty line more)
        fleet.call(photofleet_open, lines.strip_suffix('\n').unwrap_or(lines))?;
        Ok(fleet)
    }

    /// Gives a line, and returns the text of its report: none of a declaration, of an empty line or of a remark.
    ///
    /// After an error the fleet is as it was.
    pub fn give(&mut self, line: &str) -> Result<String, Error> {
        self.call(photofleet_give, line)
    }

    /// The same of a line that isn't kept: what would be printed of it now. The fleet is as it was.
    pub fn ask(&self, line: &str) -> Result<String, Error> {
        self.call(photofleet_ask, line)
    }

    fn call(&self, function: Call, line: &str) -> Result<String, Error> {
        // SAFETY: the pointers are those of a slice, of another one that is lent for writing alone, of a number, and of the
        // session, to which nothing else points while the call runs: no two threads have this fleet.
        text_of(|out, written| unsafe {
            function(self.session.get(), line.as_ptr(), line.len(), out.as_mut_ptr(), out.len(), written)
        })
    }
}

impl Drop for Fleet {
    fn drop(&mut self) {
        // SAFETY: nobody else has the session. Where it was never opened the call does nothing.
        unsafe { photofleet_close(self.session.get_mut()) };
    }
}

impl fmt::Debug for Fleet {
    fn fmt(&self, f: &mut fmt::Formatter<'_>) -> fmt::Result {
        f.debug_struct("Fleet").finish_non_exhaustive()
    }
}
