//! The product's C exports, called with the sheet and the list or text at the end
//! of pages behind which nothing may be touched.

use std::ffi::{c_int, c_void};
use std::io;

extern "C" {
    fn pomthija_listing(
        sheet: *const u8,
        sheet_length: usize,
        list: *mut u8,
        list_length: usize,
        out: *mut u64,
    ) -> u64;
    fn pomthija_evaluation(
        sheet: *const u8,
        sheet_length: usize,
        node: u64,
        values: *const u64,
        value_count: usize,
        out: *mut u64,
    ) -> u64;
    fn pomthija_sentence(
        sheet: *const u8,
        sheet_length: usize,
        block: u64,
        text: *mut u8,
        text_length: usize,
        out: *mut u64,
    ) -> u64;
    fn mmap(
        at: *mut c_void,
        length: usize,
        protection: c_int,
        flags: c_int,
        file: c_int,
        from: i64,
    ) -> *mut c_void;
    fn mprotect(at: *mut c_void, length: usize, protection: c_int) -> c_int;
}

const NONE: c_int = 0;
const READ: c_int = 1;
const WRITE: c_int = 2;
const PRIVATE: c_int = 2;
const ANONYMOUS: c_int = 0x20;

const PAGE: usize = 4096;

/// Bytes of each room, enough for every sheet, list and text that is tried.
const ROOM: usize = 256 * PAGE;

/// What stands in the list or text before a call.
pub const FILL: u8 = 0xA5;

/// A refusal's number or 0, and what was left in `out`.
#[derive(Clone, Copy, Debug, PartialEq, Eq)]
pub struct Answer {
    pub number: u64,
    pub out: u64,
}

/// Pages that can be used, between two that cannot.
struct Room {
    start: *mut u8,
}

impl Room {
    fn new() -> io::Result<Room> {
        let all = ROOM + 2 * PAGE;
        // A fresh private mapping, owned by the room alone; only its middle
        // is opened.
        let pages = unsafe { mmap(std::ptr::null_mut(), all, NONE, PRIVATE | ANONYMOUS, -1, 0) };
        if pages as isize == -1 {
            return Err(io::Error::last_os_error());
        }
        let start = unsafe { (pages as *mut u8).add(PAGE) };
        match unsafe { mprotect(start as *mut c_void, ROOM, READ | WRITE) } {
            0 => Ok(Room { start }),
            _ => Err(io::Error::last_os_error()),
        }
    }

    /// The bytes at the room's end, so that the next byte may not be touched.
    fn last(&mut self, bytes: &[u8]) -> *mut u8 {
        assert!(bytes.len() <= ROOM, "the room is large enough");
        unsafe {
            let at = self.start.add(ROOM - bytes.len());
            std::ptr::copy_nonoverlapping(bytes.as_ptr(), at, bytes.len());
            at
        }
    }
}

pub struct Product {
    sheet: Room,
    other: Room,
}

impl Product {
    pub fn new() -> io::Result<Product> {
        Ok(Product { sheet: Room::new()?, other: Room::new()? })
    }

    /// The answer, and the list afterwards.
    pub fn listing(&mut self, sheet: &[u8], room: usize) -> (Answer, Vec<u8>) {
        let at = self.sheet.last(sheet);
        let list = self.other.last(&vec![FILL; room]);
        let mut out = u64::MAX;
        let number = unsafe { pomthija_listing(at, sheet.len(), list, room, &mut out) };
        let after = unsafe { std::slice::from_raw_parts(list, room) }.to_vec();
        (Answer { number, out }, after)
    }

    /// The answer alone, where a call is to be timed: the list is what the
    /// call before it left.
    pub fn call(&mut self, sheet: &[u8], room: usize) -> Answer {
        let list = unsafe { self.other.start.add(ROOM - room) };
        let mut out = u64::MAX;
        let number = unsafe { pomthija_listing(sheet.as_ptr(), sheet.len(), list, room, &mut out) };
        Answer { number, out }
    }

    pub fn evaluation(&mut self, sheet: &[u8], node: u32, values: &[u64]) -> Answer {
        let at = self.sheet.last(sheet);
        let bytes: Vec<u8> = values.iter().flat_map(|value| value.to_le_bytes()).collect();
        let lent = self.other.last(&bytes) as *const u64;
        let mut out = u64::MAX;
        let number = unsafe {
            pomthija_evaluation(at, sheet.len(), node.into(), lent, values.len(), &mut out)
        };
        Answer { number, out }
    }

    /// The answer, and the text afterwards with so many bytes behind it that are
    /// not lent.
    pub fn sentence(
        &mut self,
        sheet: &[u8],
        block: u64,
        room: usize,
        behind: usize,
    ) -> (Answer, Vec<u8>) {
        let at = self.sheet.last(sheet);
        let text = self.other.last(&vec![FILL; room + behind]);
        let mut out = u64::MAX;
        let number = unsafe { pomthija_sentence(at, sheet.len(), block, text, room, &mut out) };
        let after = unsafe { std::slice::from_raw_parts(text, room + behind) }.to_vec();
        (Answer { number, out }, after)
    }
}
