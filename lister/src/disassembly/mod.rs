//! From the output of GNU `objdump` to sheets, and from sheets to the decided
//! branches of a program. docs/LISTER.md says what has to be right here for the
//! verdicts to be true of the program.

pub mod annotated;
pub mod assumptions;
pub mod bits;
pub mod blocks;
pub mod control_flow;
pub mod dead;
pub mod deciding;
pub mod distances;
pub mod elf;
pub mod functions;
pub mod hidden;
pub mod instruction;
pub mod json;
pub mod judge;
pub mod listing;
pub mod objdump;
pub mod operand;
pub mod pointers;
pub mod program;
pub mod report;
pub mod returns;
pub mod sheets;
pub mod steps;
pub mod table;
pub mod text;
pub mod undecided;
pub mod unwinding;
