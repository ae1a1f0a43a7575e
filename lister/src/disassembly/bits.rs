//! 32-bit and 64-bit code.

#[derive(Clone, Copy, Debug, Default, PartialEq, Eq)]
pub enum Bits {
    B32,
    #[default]
    B64,
}

impl Bits {
    /// Bytes of an address, on the stack and in data.
    pub fn word(self) -> usize {
        match self {
            Bits::B32 => 4,
            Bits::B64 => 8,
        }
    }

    /// What is left of a number as an address.
    pub fn address(self, number: u64) -> u64 {
        match self {
            Bits::B32 => number & 0xffff_ffff,
            Bits::B64 => number,
        }
    }

    /// A number as a distance between addresses.
    pub fn distance(self, number: u64) -> i64 {
        match self {
            Bits::B32 => i64::from(number as i32),
            Bits::B64 => number as i64,
        }
    }

    /// The name of the format of files, as objdump has it.
    pub fn format(self) -> &'static str {
        match self {
            Bits::B32 => "elf32-i386",
            Bits::B64 => "elf64-x86-64",
        }
    }

    /// The name of the machine for objdump.
    pub fn machine(self) -> &'static str {
        match self {
            Bits::B32 => "i386",
            Bits::B64 => "i386:x86-64",
        }
    }
}
