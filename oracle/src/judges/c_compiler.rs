//! The C compiler as judge: nodes written as C functions, compiled and run.
//!
//! Types of operators, promotions and what is evaluated are left to C. Where C
//! leaves open what the value rules settle, the macros and helpers below
//! settle it: counts of shifts, the most negative value by -1, division by
//! zero.

use crate::comparisons::frames;
use crate::sheets::names::operator;
use crate::sheets::syntax::*;
use crate::sheets::types;
use std::fmt::Write;
use std::fs;
use std::io;
use std::path::{Path, PathBuf};
use std::process::{Command, Stdio};
use std::sync::atomic::{AtomicU64, Ordering};

/// What is printed where there is no compiler.
pub const ABSENT: &str = "not compared: no C compiler";

#[derive(Clone, Copy, Debug, PartialEq, Eq)]
pub enum Outcome {
    Fails,
    Holds,
    DivisionByZero,
    /// C gives an assigned value or the condition another type than the value
    /// rules do.
    OtherType,
}

/// C's names of the outcomes, in the order of their numbers.
const OUTCOMES: [(&str, Outcome); 4] = [
    ("fails", Outcome::Fails),
    ("holds", Outcome::Holds),
    ("zero", Outcome::DivisionByZero),
    ("type", Outcome::OtherType),
];

/// C types by number.
const C_TYPES: [&str; 10] = [
    "int8_t", "int16_t", "int32_t", "int64_t", "uint8_t", "uint16_t", "uint32_t", "uint64_t",
    "uint64_t", "_Bool",
];

/// A zero divisor sets `zero`, and the value 0 takes the quotient's place; the
/// run goes on, and its outcome is then division by zero. `a + b` chooses the
/// helper by its type, and is not evaluated.
const PROLOGUE: &str = r#"#include <stdint.h>
#include <stdio.h>

_Static_assert(sizeof(int) == 4, "int has 32 bits");

static int zero;

#define DIVISION(T, NAME, OPERATOR, GUARD) \
  static T NAME(T a, T b) { \
    if (b == 0) { zero = 1; return 0; } \
    GUARD \
    return a OPERATOR b; \
  }
DIVISION(int32_t, quotient_s32, /, if (a == INT32_MIN && b == -1) return a;)
DIVISION(int64_t, quotient_s64, /, if (a == INT64_MIN && b == -1) return a;)
DIVISION(uint32_t, quotient_u32, /, )
DIVISION(uint64_t, quotient_u64, /, )
DIVISION(int32_t, remainder_s32, %, if (b == -1) return 0;)
DIVISION(int64_t, remainder_s64, %, if (b == -1) return 0;)
DIVISION(uint32_t, remainder_u32, %, )
DIVISION(uint64_t, remainder_u64, %, )

#define CHOSEN(NAME) _Generic(a + b, \
  int32_t: NAME##_s32, int64_t: NAME##_s64, uint32_t: NAME##_u32, uint64_t: NAME##_u64)
#define QUOTIENT(A, B) ({ __auto_type a = A; __auto_type b = B; CHOSEN(quotient)(a, b); })
#define REMAINDER(A, B) ({ __auto_type a = A; __auto_type b = B; CHOSEN(remainder)(a, b); })

#define COUNT ((uint64_t)b & (8 * sizeof(+a) - 1))
#define SHIFT_LEFT(A, B) ({ __auto_type a = A; __auto_type b = B; a << COUNT; })
#define SHIFT_RIGHT(A, B) ({ __auto_type a = A; __auto_type b = B; a >> COUNT; })

#define HAS_TYPE(E, T) _Generic(E, T: 1, default: 0)

"#;

const MAIN: &str = r#"
static const char *const outcomes[] = {"fails", "holds", "zero", "type"};

int main(void) {
  uint32_t number;
  uint64_t in[32];
  while (fread(&number, sizeof number, 1, stdin) == 1) {
    if (fread(in, sizeof *in, nodes[number].values, stdin) != nodes[number].values)
      return 1;
    puts(outcomes[nodes[number].run(in)]);
  }
  return 0;
}
"#;

/// An expression in C; every part of it is in parentheses of its own.
fn expression(records: &[Record]) -> String {
    let mut stack: Vec<String> = Vec::new();
    for record in records {
        let children = stack.split_off(stack.len() - record.children());
        stack.push(part(*record, &children));
    }
    stack.pop().expect("an expression is one tree")
}

fn part(record: Record, children: &[String]) -> String {
    match (record, children) {
        (Record::Variable(number), _) => format!("v{number}"),
        (Record::Constant { width, value }, _) => {
            format!("((uint{}_t){value}u)", 8 * u32::from(width))
        }
        (Record::True, _) => "((int32_t)1)".to_string(),
        (Record::False, _) => "((int32_t)0)".to_string(),
        (Record::Cast(code), [a]) => format!("(({}){a})", C_TYPES[code as usize]),
        (Record::Binary(number), [a, b]) => match number {
            operator::DIV => format!("QUOTIENT({a}, {b})"),
            operator::REM => format!("REMAINDER({a}, {b})"),
            operator::SHL => format!("SHIFT_LEFT({a}, {b})"),
            operator::SHR => format!("SHIFT_RIGHT({a}, {b})"),
            _ => format!("({a} {} {b})", operator::NAMES[number as usize]),
        },
        (Record::Ternary, [a, b, c]) => format!("({a} ? {b} : {c})"),
        _ => unreachable!("a node for C has no effect and no load"),
    }
}

/// A node as a C function from values to the number of an outcome.
pub fn function(name: &str, node: &Node) -> String {
    let mut out = format!("static int {name}(const uint64_t *in) {{\n");
    for (number, code) in node.variables.iter().enumerate() {
        let code = C_TYPES[*code as usize];
        writeln!(out, "  {code} v{number} = ({code})in[{number}];").unwrap();
    }
    out.push_str("  zero = 0;\n");
    let typed = |records: &Expression| {
        let code = types::of_expression(records, &node.variables).expect("a well typed node");
        let name = C_TYPES[code as usize];
        let value = expression(records);
        format!("__auto_type r = {value}; if (!HAS_TYPE(r, {name})) return 3;")
    };
    for statement in &node.statements {
        let Statement::Assign { variable, value } = statement else {
            unreachable!("a node for C has no 0-statement");
        };
        writeln!(out, "  {{ {} v{variable} = r; }}", typed(value)).unwrap();
    }
    writeln!(out, "  {{ {} return zero ? 2 : r ? 1 : 0; }}", typed(&node.condition)).unwrap();
    out.push_str("}\n");
    out
}

/// The whole file: a function for each node, a table of them, and a program
/// that runs the functions it is told to.
pub fn source(nodes: &[&Node]) -> String {
    let mut out = PROLOGUE.to_string();
    for (number, node) in nodes.iter().enumerate() {
        out.push_str(&function(&format!("node_{number}"), node));
    }
    out.push_str("\nstatic const struct {\n  int (*run)(const uint64_t *);\n  size_t values;\n");
    out.push_str("} nodes[] = {\n");
    for (number, node) in nodes.iter().enumerate() {
        writeln!(out, "  {{node_{number}, {}}},", node.variables.len()).unwrap();
    }
    out.push_str("};\n");
    out.push_str(MAIN);
    out
}

pub fn present() -> bool {
    let asked = Command::new("cc").arg("--version").stdout(Stdio::null()).status();
    asked.is_ok_and(|status| status.success())
}

/// A folder that is removed in the end.
struct Folder(PathBuf);

static FOLDERS: AtomicU64 = AtomicU64::new(0);

impl Folder {
    fn new() -> io::Result<Folder> {
        let number = FOLDERS.fetch_add(1, Ordering::Relaxed);
        let name = format!("evaluations-{}-{number}", std::process::id());
        let path = std::env::temp_dir().join(name);
        fs::create_dir(&path)?;
        Ok(Folder(path))
    }

    fn file(&self, name: &str) -> PathBuf {
        self.0.join(name)
    }
}

impl Drop for Folder {
    fn drop(&mut self) {
        // What cannot be removed stays in the system's temporary folder.
        let _ = fs::remove_dir_all(&self.0);
    }
}

fn compile(source: &Path, program: &Path) -> io::Result<()> {
    let status = Command::new("cc")
        .args(["-O1", "-fwrapv", "-w", "-o"])
        .arg(program)
        .arg(source)
        .status()?;
    if status.success() {
        Ok(())
    } else {
        Err(io::Error::other("the C compiler does not take the nodes"))
    }
}

/// The outcome of each run: the number of a node, and values for its variables.
pub fn judge(nodes: &[&Node], runs: &[(usize, &[u64])]) -> io::Result<Vec<Outcome>> {
    let folder = Folder::new()?;
    let (text, program) = (folder.file("nodes.c"), folder.file("nodes"));
    fs::write(&text, source(nodes))?;
    compile(&text, &program)?;
    let mut input = Vec::new();
    for (number, values) in runs {
        input.extend_from_slice(&(*number as u32).to_ne_bytes());
        let due = nodes[*number].variables.len();
        values[..due].iter().for_each(|value| input.extend_from_slice(&value.to_ne_bytes()));
    }
    let lines = frames::run(&[program.to_string_lossy().to_string()], input)?;
    let outcome = |line: &String| OUTCOMES.iter().find(|(name, _)| name == line).map(|(_, o)| *o);
    let outcomes: Option<Vec<Outcome>> = lines.iter().map(outcome).collect();
    match outcomes {
        Some(outcomes) if outcomes.len() == runs.len() => Ok(outcomes),
        _ => Err(io::Error::other("the compiled nodes did not answer every run")),
    }
}
