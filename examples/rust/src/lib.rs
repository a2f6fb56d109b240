//! A safe wrapper of the proved layout engine: a document is opened, edited by lines of text, laid out, and asked for its boxes.
//! `include/gridlay.h` says what each call does; `docs/FORMAT.md` what the texts are.
//!
//! Text needs no callback: measure each word once, and pass the widths:
//! `page.edit("content note words 24 6 60 40.5 80")`.

mod raw;

pub use raw::{Counts, Fault, Rect};

use std::fmt;
use std::marker::PhantomData;
use std::ptr;

/// An open document. It stays on its thread: it is neither `Send` nor `Sync`.
pub struct Page {
    handle: raw::Handle,
    _stays: PhantomData<*mut u8>,
}

/// Why a call did nothing. `undo N` and `redo N` alone may have made some of the N with `Memory`.
#[derive(Clone, Copy, Debug, PartialEq, Eq)]
pub enum Error {
    /// The text is refused: why and where.
    Refused(Fault),
    /// The document was not laid out since it was opened or edited last.
    Stale,
    /// Memory was wanting.
    Memory,
    /// The text has more than 2^26 bytes.
    Limit,
    /// A line of the text would have more than 65,536 bytes.
    Long,
}

impl fmt::Display for Error {
    fn fmt(&self, f: &mut fmt::Formatter) -> fmt::Result {
        match self {
            Error::Refused(Fault {
                line,
                column,
                fault,
            }) => write!(f, "refused at {line}:{column}: fault {fault}"),
            Error::Stale => f.write_str("not laid out since the last edit"),
            Error::Memory => f.write_str("want of memory"),
            Error::Limit => f.write_str("text too long"),
            Error::Long => f.write_str("line too long"),
        }
    }
}

impl std::error::Error for Error {}

/// What an answer means where the call has written its result, or else the error.
fn result(answer: u8, fault: Fault) -> Result<(), Error> {
    match answer {
        raw::OK => Ok(()),
        raw::REFUSED => Err(Error::Refused(fault)),
        raw::STALE => Err(Error::Stale),
        raw::MEMORY => Err(Error::Memory),
        raw::LIMIT => Err(Error::Limit),
        raw::LONG => Err(Error::Long),
        // a page has a document, rooms are long enough, and what is not found is told apart
        raw::CLOSED | raw::ROOM | raw::NONE => unreachable!("answer {answer}"),
        _ => unreachable!("no such answer: {answer}"),
    }
}

/// None where there is no such node, index, or box.
fn found<T>(answer: u8, it: T) -> Result<Option<T>, Error> {
    match answer {
        raw::NONE => Ok(None),
        _ => result(answer, Fault::default()).map(|()| Some(it)),
    }
}

/// Reads a list: first how many elements there are, then the elements.
fn list<T: Clone + Default>(
    mut call: impl FnMut(*mut T, usize, &mut usize) -> u8,
) -> Result<Vec<T>, Error> {
    let mut count = 0;
    match call(ptr::null_mut(), 0, &mut count) {
        raw::ROOM => {}
        answer => return result(answer, Fault::default()).map(|()| Vec::new()),
    }
    let mut all = vec![T::default(); count];
    result(call(all.as_mut_ptr(), count, &mut count), Fault::default()).map(|()| all)
}

/// Texts are written in bytes from 32 to 126 and line feeds.
fn text(bytes: Vec<u8>) -> String {
    String::from_utf8(bytes).expect("the engine writes ASCII")
}

// SAFETY, of all calls below: `raw` has them as the header does; the handle was opened by `gridlay_open` or is zeros, and is not
// copied; each pointer is that of a reference or of a slice with its length, which are borrowed for the call.
impl Page {
    /// Opens a document, which is its two header lines and its nodes.
    pub fn open(text: &str) -> Result<Page, Error> {
        let handle = raw::Handle {
            full: false,
            at: ptr::null_mut(),
        };
        let mut page = Page {
            handle,
            _stays: PhantomData,
        };
        let mut fault = Fault::default();
        let answer =
            unsafe { raw::gridlay_open(&mut page.handle, text.as_ptr(), text.len(), &mut fault) };
        result(answer, fault).map(|()| page)
    }

    /// Makes one edit: a line of a script. What is refused changes nothing.
    pub fn edit(&mut self, line: &str) -> Result<(), Error> {
        let mut fault = Fault::default();
        let answer =
            unsafe { raw::gridlay_edit(&mut self.handle, line.as_ptr(), line.len(), &mut fault) };
        result(answer, fault)
    }

    /// Lays out what the edits reach.
    pub fn layout(&mut self) -> Result<Counts, Error> {
        let mut counts = Counts::default();
        let answer = unsafe { raw::gridlay_layout(&mut self.handle, &mut counts) };
        result(answer, Fault::default()).map(|()| counts)
    }

    /// How many boxes there are.
    pub fn count(&mut self) -> Result<usize, Error> {
        let mut count = 0;
        let answer = unsafe { raw::gridlay_count(&mut self.handle, &mut count) };
        result(answer, Fault::default()).map(|()| count)
    }

    /// All boxes, in the order of the document's lines.
    pub fn boxes(&mut self) -> Result<Vec<Rect>, Error> {
        list(|room, size, count| unsafe { raw::gridlay_boxes(&mut self.handle, room, size, count) })
    }

    /// The box of a node, where there is one of this name.
    pub fn box_of(&mut self, name: &str) -> Result<Option<Rect>, Error> {
        let mut rect = Rect::default();
        let answer =
            unsafe { raw::gridlay_box_of(&mut self.handle, name.as_ptr(), name.len(), &mut rect) };
        found(answer, rect)
    }

    /// The name of the node whose box has this index.
    pub fn name(&mut self, index: usize) -> Result<Option<String>, Error> {
        let mut room = [0; 58];
        let mut length = 0;
        let answer = unsafe {
            raw::gridlay_name(
                &mut self.handle,
                index,
                room.as_mut_ptr(),
                room.len(),
                &mut length,
            )
        };
        let name = found(answer, length)?.map(|length| text(room[..length].to_vec()));
        Ok(name)
    }

    /// The indices of the boxes that the layout before did not have: what is to be painted again.
    pub fn changed(&mut self) -> Result<Vec<usize>, Error> {
        list(|room, size, count| unsafe {
            raw::gridlay_changed(&mut self.handle, room, size, count)
        })
    }

    /// The last box that contains a point, in 1/64 px.
    pub fn hit(&mut self, x: i64, y: i64) -> Result<Option<usize>, Error> {
        let mut index = 0;
        let answer = unsafe { raw::gridlay_hit(&mut self.handle, x, y, &mut index) };
        found(answer, index)
    }

    /// The boxes as the program prints them.
    pub fn print(&mut self) -> Result<String, Error> {
        list(|room, size, length| unsafe {
            raw::gridlay_print(&mut self.handle, room, size, length)
        })
        .map(text)
    }

    /// The document in its one canonical form.
    pub fn write(&mut self) -> Result<String, Error> {
        list(|room, size, length| unsafe {
            raw::gridlay_write(&mut self.handle, room, size, length)
        })
        .map(text)
    }
}

impl Drop for Page {
    fn drop(&mut self) {
        // SAFETY: as above; a handle without a document is left as it is.
        unsafe { raw::gridlay_close(&mut self.handle) }
    }
}

/// The status and the output of `gridlay layout` for an input: a document and its script.
pub fn answer(input: &[u8]) -> (u8, Vec<u8>) {
    let mut length = 0;
    let mut room = Vec::new();
    loop {
        // SAFETY: as above.
        let status = unsafe {
            raw::gridlay_answer(
                input.as_ptr(),
                input.len(),
                room.as_mut_ptr(),
                room.len(),
                &mut length,
            )
        };
        match status {
            raw::ROOM => room = vec![0; length],
            _ => {
                room.truncate(length);
                return (status, room);
            }
        }
    }
}
