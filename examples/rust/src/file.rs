//! The session file: read and written.
use crate::{ffi, Call, Guest, Options, Refusal, Table};

/// A session file that was checked as a whole.
pub struct SessionFile<'a> {
    bytes: &'a [u8],
    first: Table,
}

impl<'a> SessionFile<'a> {
    /// Checks any bytes.
    pub fn check(bytes: &'a [u8]) -> Result<SessionFile<'a>, Refusal> {
        // SAFETY: the slice's pointer and length, here and below.
        let opened = unsafe { ffi::discgauze_file_opened(bytes.as_ptr(), bytes.len()) };
        Refusal::of(opened.number)?;
        Ok(SessionFile { bytes, first: Table::from_inside(opened.table) })
    }

    /// The table that the session opens with.
    pub fn first(&self) -> Table {
        self.first.clone()
    }

    /// Its calls, one after another.
    pub fn calls(&self) -> impl Iterator<Item = Call> + 'a {
        let bytes = self.bytes;
        let mut at = unsafe { ffi::discgauze_file_first(bytes.as_ptr(), bytes.len()) };
        std::iter::from_fn(move || {
            if at >= bytes.len() {
                return None;
            }
            let call = unsafe { ffi::discgauze_file_call(bytes.as_ptr(), bytes.len(), at) };
            if !call.found {
                return None;
            }
            at = call.behind;
            let order = bytes.get(call.order..call.order + call.cards).unwrap_or(&[]);
            Call::of(call.kind, Guest { seat: call.seat, position: call.position }, call.amount, order)
        })
    }
}

/// Writes the one file that a session has: it is told each accepted call.
pub struct FileWriter {
    writer: ffi::Writer,
    blocks: Vec<u8>,
}

impl FileWriter {
    /// The beginning of a session.
    pub fn begin(options: &Options, order: &[u8]) -> Result<FileWriter, Refusal> {
        let written = unsafe { ffi::discgauze_file_begin(*options, order.as_ptr(), order.len()) };
        Refusal::of(written.number)?;
        let mut file = FileWriter { writer: written.writer, blocks: Vec::new() };
        file.keep(&written);
        Ok(file)
    }

    fn keep(&mut self, written: &ffi::Written) {
        self.writer = written.writer;
        if written.blocks > 0 {
            self.blocks.extend_from_slice(&written.first);
        }
        if written.blocks > 1 {
            self.blocks.extend_from_slice(&written.second);
        }
    }

    /// One more accepted call.
    pub fn add(&mut self, call: &Call) -> Result<(), Refusal> {
        let c = call.code();
        let written = unsafe {
            ffi::discgauze_file_add(
                self.writer,
                c.kind,
                c.guest.seat,
                c.guest.position,
                c.amount,
                c.order.as_ptr(),
                c.order.len(),
            )
        };
        Refusal::of(written.number)?;
        self.keep(&written);
        Ok(())
    }

    /// The whole file.
    pub fn end(mut self) -> Vec<u8> {
        let last = unsafe { ffi::discgauze_file_end(self.writer) };
        if last.blocks > 0 {
            self.blocks.extend_from_slice(&last.block);
        }
        self.blocks
    }
}
