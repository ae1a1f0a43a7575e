//! The given source as a program: it reads frames from standard input and
//! writes for each the verdicts on its blocks and nodes, the sentences for its
//! blocks, or the refusal.
//! oracle/README.md says what is changed in the source.

#[cfg(given_source)]
#[allow(warnings)]
mod ast {
    include!(concat!(env!("OUT_DIR"), "/ast.rs"));
}
#[cfg(given_source)]
#[allow(warnings)]
mod cpu_context {
    include!(concat!(env!("OUT_DIR"), "/cpu_context.rs"));
}
#[cfg(all(given_source, product))]
mod bench;
#[cfg(given_source)]
mod engine;
#[cfg(all(given_source, product))]
mod fuzz;
#[cfg(given_source)]
mod guard;
#[cfg(given_source)]
#[allow(warnings)]
mod opaque {
    use crate::iced_x86;

    include!(concat!(env!("OUT_DIR"), "/opaque.rs"));

    /// Whether the condition holds after the statements, and why.
    pub fn node_verdict(
        statements: &[crate::lift::Statement],
        condition: &AstNode,
    ) -> Option<(bool, String)> {
        decide(&with_assignments(statements, condition))
    }
}
#[cfg(all(given_source, product))]
mod product;
#[cfg(given_source)]
mod stand_ins;
#[cfg(all(test, given_source))]
mod tests;
#[cfg(given_source)]
use stand_ins::{asm, cfg, emit, emulate, iced_x86, lift, pipeline, register, structure};

use std::io;
use std::process::ExitCode;

const USAGE: &str = "usage: given [--differences | --time]
       given fuzz SECONDS SEED
       given listings SHEETS SEED
       given bench PLOT [FOLDER]
Frames for the verdicts on blocks and on nodes, and for the sentences, are read from
standard input.
--differences judges nodes with the entries of docs/DIFFERENCES.md and with the
refusals 10 and 11, --time answers nodes with the nanoseconds that judging each took,
the least of several times. fuzz compares the product's C exports with these answers, and
bench times both on the same sheets, also on those of a folder, and writes a plot; they are there where the
build was told the product's folder.";

fn main() -> ExitCode {
    let args: Vec<String> = std::env::args().skip(1).collect();
    let words: Vec<&str> = args.iter().map(String::as_str).collect();
    let outcome = match words.as_slice() {
        [] => run(Lines::AsItIs),
        ["--differences"] => run(Lines::WithDifferences),
        ["--time"] => run(Lines::Times),
        [command @ ("fuzz" | "listings"), amount, seed] => with_product(command, amount, seed),
        ["bench", plot] => timed(plot, None),
        ["bench", plot, folder] => timed(plot, Some(folder)),
        _ => Err(io::Error::other(USAGE)),
    };
    match outcome {
        Ok(()) => ExitCode::SUCCESS,
        Err(error) => {
            eprintln!("{error}");
            ExitCode::from(2)
        }
    }
}

/// The commands that have the product linked in.
#[cfg(all(given_source, product))]
fn with_product(command: &str, amount: &str, seed: &str) -> io::Result<()> {
    let number = |word: &str| word.parse().map_err(|_| io::Error::other(USAGE));
    let agreed = match command {
        "fuzz" => fuzz::run(number(amount)?, number(seed)?)?,
        _ => fuzz::listings(number(amount)?, number(seed)?)?,
    };
    match agreed {
        true => Ok(()),
        false => Err(io::Error::other("the product differs")),
    }
}

#[cfg(all(given_source, product))]
fn timed(plot: &str, folder: Option<&str>) -> io::Result<()> {
    bench::run(plot, folder)
}

#[cfg(all(given_source, not(product)))]
const NO_PRODUCT: &str = "this build was not told the product's folder";

#[cfg(all(given_source, not(product)))]
fn with_product(_command: &str, _amount: &str, _seed: &str) -> io::Result<()> {
    Err(io::Error::other(NO_PRODUCT))
}

#[cfg(all(given_source, not(product)))]
fn timed(_plot: &str, _folder: Option<&str>) -> io::Result<()> {
    Err(io::Error::other(NO_PRODUCT))
}

#[cfg(not(given_source))]
fn with_product(_command: &str, _amount: &str, _seed: &str) -> io::Result<()> {
    println!("{}", oracle::answers::ABSENT);
    Ok(())
}

#[cfg(not(given_source))]
fn timed(_plot: &str, _folder: Option<&str>) -> io::Result<()> {
    println!("{}", oracle::answers::ABSENT);
    Ok(())
}

/// What the lines say: answers, or nanoseconds on nodes.
#[allow(dead_code)]
enum Lines {
    AsItIs,
    WithDifferences,
    Times,
}

#[cfg(given_source)]
fn run(lines: Lines) -> io::Result<()> {
    use engine::Nodes;
    use oracle::comparisons::frames::Question;
    guard::hush();
    let nodes = match lines {
        Lines::WithDifferences => Nodes::WithDifferences,
        _ => Nodes::AsTheyAre,
    };
    let mut input = io::BufReader::new(io::stdin());
    let mut output = io::BufWriter::new(io::stdout());
    oracle::comparisons::frames::serve(&mut input, &mut output, |question| match question {
        Question::Blocks(sheet) => Ok(engine::line(sheet, nodes)),
        Question::Sentences(sheet) => Ok(engine::sentence_line(sheet)),
        Question::Nodes(sheet) if matches!(lines, Lines::Times) => Ok(engine::time_line(sheet)),
        Question::Nodes(sheet) => Ok(engine::node_line(sheet, nodes)),
        _ => Err(io::Error::other("the given source judges blocks and nodes alone")),
    })
}

#[cfg(not(given_source))]
fn run(_lines: Lines) -> io::Result<()> {
    println!("{}", oracle::answers::ABSENT);
    io::copy(&mut io::stdin(), &mut io::sink()).map(|_| ())
}
