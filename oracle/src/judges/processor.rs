//! Code run on this processor: a body between a start that sets registers and
//! flags, and an end that tries every jump and says which were taken.

use crate::judges::assembler::Code;
use crate::sheets::names::mnemonic;

/// Jumps that 64-bit code can encode: all but the last, jcxz.
pub const JUMPS: usize = (mnemonic::JCXZ - FIRST_JUMP) as usize;

/// The number of the first of them.
pub const FIRST_JUMP: u8 = mnemonic::JE;

/// What a run starts from: the registers by index, the flags as the processor
/// has them, and eight bytes of memory for memory operands.
#[derive(Clone, Copy, Debug)]
pub struct Start {
    pub registers: [u64; 16],
    pub flags: u64,
    pub memory: u64,
}

#[cfg(not(target_arch = "x86_64"))]
pub const MISSING: Option<&str> = Some("not run: no x86-64 processor");
#[cfg(all(target_arch = "x86_64", not(target_os = "linux")))]
pub const MISSING: Option<&str> = Some("not run: not a Linux system");
#[cfg(all(target_arch = "x86_64", target_os = "linux"))]
pub const MISSING: Option<&str> = None;

#[cfg(all(target_arch = "x86_64", target_os = "linux"))]
pub use here::Runner;
#[cfg(not(all(target_arch = "x86_64", target_os = "linux")))]
pub use nowhere::Runner;

#[cfg(all(target_arch = "x86_64", target_os = "linux"))]
mod here {
    use super::*;
    use crate::judges::assembler;
    use std::ffi::{c_int, c_void};
    use std::io;

    extern "C" {
        fn mmap(
            at: *mut c_void,
            len: usize,
            prot: c_int,
            flags: c_int,
            fd: c_int,
            from: i64,
        ) -> *mut c_void;
        fn mprotect(at: *mut c_void, len: usize, prot: c_int) -> c_int;
        fn munmap(at: *mut c_void, len: usize) -> c_int;
    }

    const READ: c_int = 1;
    const WRITE: c_int = 2;
    const EXECUTE: c_int = 4;
    const PRIVATE: c_int = 2;
    const ANONYMOUS: c_int = 0x20;

    /// One page of code and behind it one of data.
    const PAGE: usize = 4096;

    /// Places in the data page.
    const STACK: usize = 0;
    const FLAGS: usize = 8;
    const MEMORY: usize = 16;
    const REGISTERS: usize = 64;
    const TAKEN: usize = 256;

    pub struct Runner {
        pages: *mut u8,
    }

    impl Runner {
        pub fn new() -> io::Result<Runner> {
            // A fresh private mapping, owned by the runner alone.
            let pages = unsafe {
                mmap(std::ptr::null_mut(), 2 * PAGE, READ | WRITE, PRIVATE | ANONYMOUS, -1, 0)
            };
            if pages as isize == -1 {
                return Err(io::Error::last_os_error());
            }
            Ok(Runner { pages: pages.cast() })
        }

        /// Sets what the code page allows; never writing and running at once.
        fn allow(&mut self, protection: c_int) -> io::Result<()> {
            match unsafe { mprotect(self.pages.cast(), PAGE, protection) } {
                0 => Ok(()),
                _ => Err(io::Error::last_os_error()),
            }
        }

        /// Puts the body in place of the one before.
        pub fn load(&mut self, body: &[Code]) -> io::Result<()> {
            let code = program(body);
            assert!(code.len() <= PAGE, "the code fits its page");
            self.allow(READ | WRITE)?;
            unsafe { std::ptr::copy_nonoverlapping(code.as_ptr(), self.pages, code.len()) };
            self.allow(READ | EXECUTE)
        }

        fn put(&mut self, place: usize, value: u64) {
            unsafe { self.pages.add(PAGE + place).cast::<u64>().write(value) };
        }

        /// Runs the body once; for each jump whether it was taken.
        pub fn run(&mut self, start: &Start) -> [bool; JUMPS] {
            for (index, value) in start.registers.iter().enumerate() {
                self.put(REGISTERS + 8 * index, *value);
            }
            self.put(FLAGS, start.flags);
            self.put(MEMORY, start.memory);
            // The page holds the code of `program`, which keeps to the calling
            // convention: it restores the registers and the stack it changes.
            unsafe {
                let code: extern "C" fn() = std::mem::transmute(self.pages);
                code();
            }
            let mut taken = [false; JUMPS];
            for (jump, taken) in taken.iter_mut().enumerate() {
                *taken = unsafe { self.pages.add(PAGE + TAKEN + jump).read_volatile() } == 1;
            }
            taken
        }
    }

    impl Drop for Runner {
        fn drop(&mut self) {
            unsafe { munmap(self.pages.cast(), 2 * PAGE) };
        }
    }

    /// The whole code around a body.
    fn program(body: &[Code]) -> Vec<u8> {
        let mut out = Vec::new();
        // push rbx, rbp, r12 to r15; keep rsp.
        out.extend([0x53, 0x55, 0x41, 0x54, 0x41, 0x55, 0x41, 0x56, 0x41, 0x57]);
        distant(&mut out, &[0x48, 0x89, 0x25], STACK, &[]);
        // push the flags, popfq, then the registers, rsp among them.
        distant(&mut out, &[0xFF, 0x35], FLAGS, &[]);
        out.push(0x9D);
        for index in 0..16u8 {
            let rex = if index >= 8 { 0x4C } else { 0x48 };
            let place = REGISTERS + 8 * usize::from(index);
            distant(&mut out, &[rex, 0x8B, (index & 7) << 3 | 5], place, &[]);
        }
        for code in body {
            let start = code.bytes.len() - if code.memory { 4 } else { 0 };
            match code.memory {
                true => distant(&mut out, &code.bytes[..start], MEMORY, &[]),
                false => out.extend(&code.bytes),
            }
        }
        for number in 0..JUMPS {
            tried(&mut out, number);
        }
        // rsp back, cld, pop r15 to r12, rbp, rbx, ret.
        distant(&mut out, &[0x48, 0x8B, 0x25], STACK, &[]);
        out.extend([0xFC, 0x41, 0x5F, 0x41, 0x5E, 0x41, 0x5D, 0x41, 0x5C, 0x5D, 0x5B, 0xC3]);
        out
    }

    /// Stores 1, jumps over the next instruction, stores 0: neither touches a
    /// register or a flag.
    fn tried(out: &mut Vec<u8>, number: usize) {
        let jump = assembler::jump(FIRST_JUMP + number as u8, 7).expect("each has a short form");
        distant(out, &[0xC6, 0x05], TAKEN + number, &[1]);
        out.extend(jump);
        let behind_jump = out.len();
        distant(out, &[0xC6, 0x05], TAKEN + number, &[0]);
        assert_eq!(out.len() - behind_jump, 7, "the jump's distance");
    }

    /// An instruction on a place of the data page, by its distance from the
    /// instruction's end.
    fn distant(out: &mut Vec<u8>, opcode: &[u8], place: usize, immediate: &[u8]) {
        out.extend_from_slice(opcode);
        let end = out.len() + 4 + immediate.len();
        let distance = (PAGE + place) as i32 - end as i32;
        out.extend(distance.to_le_bytes());
        out.extend_from_slice(immediate);
    }
}

#[cfg(not(all(target_arch = "x86_64", target_os = "linux")))]
mod nowhere {
    use super::*;
    use std::io;

    pub struct Runner;

    impl Runner {
        pub fn new() -> io::Result<Runner> {
            Err(io::Error::other("this code cannot run here"))
        }

        pub fn load(&mut self, _body: &[Code]) -> io::Result<()> {
            Err(io::Error::other("this code cannot run here"))
        }

        pub fn run(&mut self, _start: &Start) -> [bool; JUMPS] {
            [false; JUMPS]
        }
    }
}
