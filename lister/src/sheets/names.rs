//! The numbers of mnemonics, operators, types and kinds, once, with the names
//! that the text of a sheet has for them; the bits of flags.

/// A constant for each name, numbered from 0, and the names by number.
macro_rules! numbered {
    ($($constant:ident $name:literal,)*) => {
        #[allow(non_camel_case_types, clippy::upper_case_acronyms)]
        enum Number {
            $($constant,)*
        }
        $(pub const $constant: u8 = Number::$constant as u8;)*
        pub const NAMES: &[&str] = &[$($name,)*];
    };
}

/// Mnemonics. The jumps on flags stand from je to jno.
pub mod mnemonic {
    numbered! {
        OTHER "other",
        STC "stc",
        CLC "clc",
        CMC "cmc",
        MOV "mov",
        NOT "not",
        ADD "add",
        SUB "sub",
        CMP "cmp",
        AND "and",
        OR "or",
        XOR "xor",
        TEST "test",
        INC "inc",
        DEC "dec",
        NEG "neg",
        JE "je",
        JNE "jne",
        JL "jl",
        JGE "jge",
        JLE "jle",
        JG "jg",
        JB "jb",
        JAE "jae",
        JBE "jbe",
        JA "ja",
        JS "js",
        JNS "jns",
        JP "jp",
        JNP "jnp",
        JO "jo",
        JNO "jno",
        JRCXZ "jrcxz",
        JECXZ "jecxz",
        JCXZ "jcxz",
    }
    pub const COUNT: u8 = NAMES.len() as u8;
    pub const CARRY: [u8; 3] = [STC, CLC, CMC];
    /// With one operand.
    pub const UNARY: [u8; 4] = [NOT, INC, DEC, NEG];
    /// With two operands, mov apart.
    pub const BINARY: [u8; 7] = [ADD, SUB, CMP, AND, OR, XOR, TEST];
    /// Those whose effect is worked out.
    pub const MODELLED: std::ops::RangeInclusive<u8> = STC..=NEG;
    /// Jumps on register 1.
    pub const COUNT_JUMPS: std::ops::RangeInclusive<u8> = JRCXZ..=JCXZ;
}

/// Binary operators.
pub mod operator {
    numbered! {
        ADD "+",
        SUB "-",
        MUL "*",
        DIV "/",
        REM "%",
        AND "&",
        OR "|",
        XOR "^",
        SHL "<<",
        SHR ">>",
        EQUAL "==",
        NOT_EQUAL "!=",
        LESS "<",
        LESS_EQUAL "<=",
        GREATER ">",
        GREATER_EQUAL ">=",
        BOTH "&&",
        EITHER "||",
    }
    pub const COUNT: u8 = NAMES.len() as u8;
}

/// Types of values.
pub mod value_type {
    numbered! {
        S8 "s8",
        S16 "s16",
        S32 "s32",
        S64 "s64",
        U8 "u8",
        U16 "u16",
        U32 "u32",
        U64 "u64",
        POINTER "ptr",
        BOOL "bool",
    }
    pub const COUNT: u8 = NAMES.len() as u8;
}

/// Kinds of records; the text has no names for them.
pub mod kind {
    pub const VARIABLE: u8 = 0;
    pub const CONSTANT: u8 = 1;
    pub const TRUE: u8 = 2;
    pub const FALSE: u8 = 3;
    pub const EFFECT: u8 = 4;
    pub const LOAD: u8 = 5;
    pub const CAST: u8 = 6;
    pub const BINARY: u8 = 7;
    pub const TERNARY: u8 = 8;
}

/// Codes of operands.
pub mod operand {
    pub const REGISTER: u8 = 0;
    pub const IMMEDIATE: u8 = 1;
    pub const MEMORY: u8 = 2;
}

/// Map bytes of statements.
pub mod statement {
    pub const OTHER: u8 = 0;
    pub const ASSIGN: u8 = 3;
}

/// Bits of the written flags.
pub mod flag {
    pub const CF: u8 = 1;
    pub const PF: u8 = 2;
    pub const ZF: u8 = 4;
    pub const SF: u8 = 8;
    pub const OF: u8 = 16;
    pub const ALL: u8 = CF | PF | ZF | SF | OF;
    /// The names, lowest bit first.
    pub const NAMES: &[&str] = &["cf", "pf", "zf", "sf", "of"];
}

/// Numbers of refusals: 1 to 9 by reading, 10 and 11 by the verdict on a node, 13
/// to 16 by the operations on a number, 17 by the sentence.
pub mod refusal {
    pub const ENDED: u8 = 1;
    pub const CODE: u8 = 2;
    pub const COUNT: u8 = 3;
    pub const ADDRESS: u8 = 4;
    pub const REGISTER: u8 = 5;
    pub const MODELLED: u8 = 6;
    pub const TREE: u8 = 7;
    pub const CONSTANT: u8 = 8;
    pub const TYPE: u8 = 9;
    pub const RECORDS: u8 = 10;
    pub const TERMS: u8 = 11;
    pub const NUMBER: u8 = 13;
    pub const DIVISION: u8 = 14;
    pub const NOT_PLAIN: u8 = 15;
    pub const VALUE: u8 = 16;
    pub const TEXT: u8 = 17;
}

/// The number of `name` in a table of names.
pub fn number_of(table: &[&str], name: &str) -> Option<u8> {
    table.iter().position(|n| *n == name).map(|i| i as u8)
}
