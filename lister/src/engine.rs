//! The product, by its C interface: include/pomthija.h.

use lister::disassembly::judge::{decided, Decided, LINE};

extern "C" {
    fn pomthija_version() -> u64;
    fn pomthija_listing(
        sheet: *const u8,
        sheet_length: usize,
        list: *mut u8,
        list_length: usize,
        out: *mut u64,
    ) -> u64;
}

/// The interface that is declared above.
const VERSION: u64 = 1;

/// A list that is long enough for every sheet.
const LIST: usize = 2_048 * LINE;

/// More than the stack that a call needs.
pub const STACK: usize = 8 << 20;

pub fn version() -> u64 {
    unsafe { pomthija_version() }
}

/// The decided branches of a sheet.
pub fn listed(sheet: &[u8]) -> Result<Vec<Decided>, String> {
    if version() != VERSION {
        return Err(format!("linked with version {} of the library, not {VERSION}", version()));
    }
    let mut list = vec![0; LIST];
    let mut out = 0;
    // The pointers are good for the lengths beside them, and nobody else has the list or `out`.
    let number = unsafe {
        pomthija_listing(sheet.as_ptr(), sheet.len(), list.as_mut_ptr(), list.len(), &mut out)
    };
    if number != 0 {
        return Err(format!("a sheet is refused {number} at {out}"));
    }
    let lines = usize::try_from(out).ok().and_then(|count| list.get(..count.checked_mul(LINE)?));
    lines.and_then(decided).ok_or_else(|| "the listing does not fit its list".to_string())
}
