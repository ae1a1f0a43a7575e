//! Counters that the compiler puts at every branch of this program, where it is
//! built with `-Cpasses=sancov-module` and inline 8-bit counters. Each object
//! file announces its own before `main` starts.

use std::sync::Mutex;

/// The announced counters, as addresses of the first and of the one after the
/// last.
static COUNTERS: Mutex<Vec<(usize, usize)>> = Mutex::new(Vec::new());

/// Called by the code that the compiler adds.
#[no_mangle]
pub extern "C" fn __sanitizer_cov_8bit_counters_init(start: *mut u8, stop: *mut u8) {
    let mut counters = COUNTERS.lock().expect("no other thread runs yet");
    if start != stop && !counters.contains(&(start as usize, stop as usize)) {
        counters.push((start as usize, stop as usize));
    }
}

/// How often a place was reached, in eight classes, a bit for each.
fn class(count: u8) -> u8 {
    match count {
        0 => 0,
        1 => 1,
        2 => 2,
        3 => 4,
        4..=7 => 8,
        8..=15 => 16,
        16..=31 => 32,
        32..=127 => 64,
        _ => 128,
    }
}

pub struct Coverage {
    parts: Vec<(usize, usize)>,
    seen: Vec<u8>,
}

impl Coverage {
    pub fn new() -> Coverage {
        let parts = COUNTERS.lock().expect("no thread fails with the lock").clone();
        let places = parts.iter().map(|(start, stop)| stop - start).sum();
        Coverage { parts, seen: vec![0; places] }
    }

    pub fn places(&self) -> usize {
        self.seen.len()
    }

    pub fn reached(&self) -> usize {
        self.seen.iter().filter(|classes| **classes != 0).count()
    }

    /// The counters, one after the other.
    fn counters(&self) -> impl Iterator<Item = *mut u8> + '_ {
        self.parts.iter().flat_map(|(start, stop)| (*start..*stop).map(|at| at as *mut u8))
    }

    pub fn clear(&mut self) {
        // The ranges were announced by the compiler's own code, and this
        // program has one thread.
        self.counters().for_each(|counter| unsafe { counter.write_volatile(0) });
    }

    /// Whether a place was reached as often as never before since `clear`.
    pub fn is_new(&mut self) -> bool {
        let counts: Vec<u8> =
            self.counters().map(|counter| unsafe { counter.read_volatile() }).collect();
        let mut new = false;
        for (seen, count) in self.seen.iter_mut().zip(counts) {
            let class = class(count);
            new |= *seen & class != class;
            *seen |= class;
        }
        new
    }
}
