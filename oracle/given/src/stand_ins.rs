//! Stand-ins for what the given source takes from files that were not
//! published with it: names and fields that it uses, and no more.

/// The decoder's numbers. A mnemonic's number is the sheet's.
pub mod iced_x86 {
    macro_rules! mnemonics {
        ($($name:ident)*) => {
            #[allow(clippy::upper_case_acronyms)]
            #[derive(Clone, Copy, Debug, PartialEq, Eq)]
            pub enum Mnemonic { $($name),* }

            const ALL: &[Mnemonic] = &[$(Mnemonic::$name),*];
        };
    }

    mnemonics!(INVALID Stc Clc Cmc Mov Not Add Sub Cmp And Or Xor Test Inc Dec Neg
        Je Jne Jl Jge Jle Jg Jb Jae Jbe Ja Js Jns Jp Jnp Jo Jno Jrcxz Jecxz Jcxz);

    impl TryFrom<usize> for Mnemonic {
        type Error = ();

        fn try_from(number: usize) -> Result<Mnemonic, ()> {
            ALL.get(number).copied().ok_or(())
        }
    }

    /// A flag's bit is the sheet's.
    pub struct RflagsBits;

    impl RflagsBits {
        pub const CF: u32 = 1;
        pub const PF: u32 = 2;
        pub const ZF: u32 = 4;
        pub const SF: u32 = 8;
        pub const OF: u32 = 16;
    }
}

pub mod register {
    #[derive(Clone, Copy, Debug, PartialEq, Eq)]
    pub struct RegisterId {
        pub class: u32,
        pub index: u32,
        pub bit_size: u32,
        pub bit_offset: u32,
    }
}

pub mod pipeline {
    use crate::cpu_context::DecodedInsn;

    pub struct Disasm {
        pub instructions: Vec<DecodedInsn>,
    }
}

pub mod cfg {
    pub struct Block {
        pub from: u64,
        pub to: u64,
    }

    pub struct ProcedureCfg {
        pub blocks: Vec<Block>,
    }
}

pub mod structure {
    use crate::ast::AstNode;

    /// The lift's nodes end in other ways too; here each ends in a branch.
    #[allow(dead_code)]
    pub enum Terminator {
        Branch { cond: AstNode, addresses: Vec<u64> },
        Other,
    }
}

pub mod lift {
    use crate::ast::AstNode;
    use crate::iced_x86::Mnemonic;
    use crate::structure::Terminator;

    pub struct Statement {
        pub node: AstNode,
    }

    pub struct Node {
        pub statements: Vec<Statement>,
        pub terminator: Terminator,
    }

    pub struct Stages {
        pub medium: Vec<Node>,
    }

    #[derive(Clone, Copy, Debug, PartialEq, Eq)]
    pub enum Cc {
        E,
        Ne,
        L,
        Ge,
        Le,
        G,
        B,
        Ae,
        Be,
        A,
        S,
        Ns,
        P,
        Np,
        O,
        No,
    }

    /// The condition of a jump; the prefix is always that of jumps.
    pub fn cc_of(mnemonic: Mnemonic, _prefix: &str) -> Option<Cc> {
        Some(match mnemonic {
            Mnemonic::Je => Cc::E,
            Mnemonic::Jne => Cc::Ne,
            Mnemonic::Jl => Cc::L,
            Mnemonic::Jge => Cc::Ge,
            Mnemonic::Jle => Cc::Le,
            Mnemonic::Jg => Cc::G,
            Mnemonic::Jb => Cc::B,
            Mnemonic::Jae => Cc::Ae,
            Mnemonic::Jbe => Cc::Be,
            Mnemonic::Ja => Cc::A,
            Mnemonic::Js => Cc::S,
            Mnemonic::Jns => Cc::Ns,
            Mnemonic::Jp => Cc::P,
            Mnemonic::Jnp => Cc::Np,
            Mnemonic::Jo => Cc::O,
            Mnemonic::Jno => Cc::No,
            _ => return None,
        })
    }

    /// The usual name of the low bits of a general register.
    pub fn gpr_name(index: u32, bits: u32) -> String {
        const FIRST: [&str; 8] = ["ax", "cx", "dx", "bx", "sp", "bp", "si", "di"];
        let Some(name) = FIRST.get(index as usize) else {
            let letter = match bits {
                64 => "",
                32 => "d",
                16 => "w",
                _ => "b",
            };
            return format!("r{index}{letter}");
        };
        match bits {
            64 => format!("r{name}"),
            32 => format!("e{name}"),
            16 => name.to_string(),
            _ => format!("{}l", name.trim_end_matches('x')),
        }
    }
}

pub mod emit {
    use crate::ast::AstNode;

    /// Expressions appear in sentences only, and sentences are told apart by
    /// their other words.
    pub fn emit_node(_node: &AstNode) -> String {
        "E".to_string()
    }
}

pub mod emulate {
    use crate::ast::AstNode;

    pub struct Constant {
        pub value: Option<u64>,
    }

    pub fn constant_value(_node: &AstNode) -> Option<Constant> {
        None
    }
}

pub mod asm {
    pub fn no_ops(length: usize) -> Vec<u8> {
        vec![0x90; length]
    }
}
