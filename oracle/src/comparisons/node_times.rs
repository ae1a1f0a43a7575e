//! Times of verdicts on nodes, a test program's beside those of the given
//! source, on the same nodes in one run.

use crate::answers::ABSENT;
use crate::cases::any_sheet::Generator;
use crate::cases::limit_node::wide_node;
use crate::cases::verdict_node;
use crate::comparisons::frames::{ask_nodes, ask_reading, run};
use crate::comparisons::nodes::sheet_of;
use crate::comparisons::times::processor_times;
use crate::judges::node_limits::{children, parity, refusal};
use crate::sheets::from_text::write;
use crate::sheets::syntax::Node;
use std::io;

/// Nodes of a set that generated ones are chosen for.
const NODES: usize = 100;

/// Seconds of processor time that a measurement takes at least.
const LEAST: f64 = 1.0;

type Sheets = Vec<Vec<u8>>;

/// A set of nodes with its name, a sheet for each node.
type Set = (&'static str, fn() -> Sheets);

/// Conditions of at most nine records, behind two assignments at most.
fn plain() -> Sheets {
    let short = |node: &Node| node.condition.len() <= 9 && node.statements.len() <= 2;
    let nodes = (0..).map(|index| verdict_node::numbered(31, index));
    nodes.filter(short).take(NODES).map(|node| sheet_of(&[node])).collect()
}

/// Conditions that are judged and have a side of 128 to 256 terms.
fn polynomials() -> Sheets {
    let wide = |node: &Node| {
        let large = |side: &&[_]| parity(side, &mut Vec::new()).is_ok_and(|poly| poly.len() >= 128);
        refusal(node).is_none() && children(&node.condition).iter().any(large)
    };
    let nodes = (0..).map(|index| wide_node(&mut Generator::new(32, index, 0)));
    nodes.filter(wide).take(NODES).map(|node| sheet_of(&[node])).collect()
}

/// A product of 64 by 64 terms that is one of its factors.
fn product() -> Sheets {
    let factors: Vec<String> = (0..6).map(|number| format!("(+ 1:4 v{number})")).collect();
    let once = factors[1..].iter().fold(factors[0].clone(), |all, one| format!("(* {all} {one})"));
    sheet_of_text(&format!("node\nvars repeat 6 {{ u32 }}\ncond (== (* {once} {once}) 1:4)\n"))
}

/// The slowest node that was found, 125 bytes: nine products of 63 by 63 terms,
/// each of which stands at 1,953 terms before they cancel to 63, made twice,
/// for the exact step and for parity.
const SLOWEST: &str = "node
vars repeat 13 { u32 }
assign 12 (| (| (| (| (| v0 v1) v2) v3) v4) v5)
cond records [ repeat 9 { v12 } v5 v6 v7 | v8 | v9 | v10 | v11 | * repeat 9 { * } 1:4 & v0 == ]
";

/// A sheet of so many of the slowest nodes.
pub fn slowest(count: usize) -> Vec<u8> {
    sheet_of_text(&SLOWEST.repeat(count)).remove(0)
}

/// Sixty-four assignments: one value of 63 records, and 58 values of 127
/// records that are written with it, in turn for 31 variables.
fn substitution() -> Sheets {
    let copies: String =
        (0..58).map(|number| format!("assign {} (+ v0 v0)\n", 1 + number % 31)).collect();
    let text = format!(
        "node\nvars repeat 32 {{ u32 }}\nassign 0 v31\nrepeat 5 {{\nassign 0 (+ v0 v0)\n}}\n{copies}\
         cond (== v0 1:4)\n"
    );
    sheet_of_text(&text)
}

fn sheet_of_text(text: &str) -> Sheets {
    vec![write(text).unwrap_or_else(|error| panic!("{error}")).bytes]
}

/// Nanoseconds that a program takes for a sheet in its own code, of many rounds
/// less one.
fn each(program: &[String], sheets: &Sheets, ask: fn(&mut Vec<u8>, &[u8])) -> io::Result<f64> {
    let timed = |rounds: usize| {
        let mut input = Vec::new();
        for _ in 0..rounds {
            sheets.iter().for_each(|sheet| ask(&mut input, sheet));
        }
        processor_times(program, input).map(|times| times.own)
    };
    let least = timed(1)?;
    let mut rounds = 1;
    loop {
        rounds *= 4;
        let time = timed(rounds)? - least;
        if time >= LEAST {
            return Ok(time * 1e9 / ((rounds - 1) * sheets.len()) as f64);
        }
    }
}

/// The given source's own times on the nodes, without reading and building
/// trees, and how many it does not judge to the end.
fn judging(given: &[String], sheets: &Sheets) -> io::Result<Option<(f64, usize)>> {
    let mut input = Vec::new();
    sheets.iter().for_each(|sheet| ask_nodes(&mut input, sheet));
    let lines = run(&[given, &["--time".to_string()]].concat(), input)?;
    if lines.first().is_some_and(|line| line == ABSENT) {
        return Ok(None);
    }
    let times: Vec<f64> =
        lines.iter().filter_map(|line| line.strip_prefix("nodes ")?.parse().ok()).collect();
    let open = lines.len() - times.len();
    Ok(Some((times.iter().sum::<f64>() / times.len().max(1) as f64, open)))
}

/// Prints the times for a frame with one node. A program reads its sheet three
/// times: for the count of nodes, for the verdict, and for the number past the
/// last; the given source's driver reads it once and builds trees.
pub fn bench(program: &[String], given: &[String]) -> io::Result<()> {
    let sets: [Set; 5] = [
        ("plain conditions", plain),
        ("polynomials of 128 to 256 terms", polynomials),
        ("a product of 64 by 64 terms", product),
        ("the longest substitution", substitution),
        ("the slowest node", || vec![slowest(1)]),
    ];
    for (name, sheets) in sets {
        let sheets = sheets();
        let reading = each(program, &sheets, ask_reading)?;
        let all = each(program, &sheets, ask_nodes)?;
        print!("{name}: program {all:.0} ns, a frame of reading {reading:.0} ns");
        if let Some((alone, open)) = judging(given, &sheets)? {
            let whole = each(given, &sheets, ask_nodes)?;
            print!("; given source {whole:.0} ns");
            if open < sheets.len() {
                print!(", judging alone {alone:.0} ns");
            }
            if open > 0 {
                print!(", {open} of {} not to the end", sheets.len());
            }
        }
        println!();
    }
    Ok(())
}
