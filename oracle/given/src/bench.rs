//! The listing side by side with the given source, in one process: the product
//! reads and judges a sheet and writes its lines; the other side reads it with
//! the independent reader and judges it with the source's own entry.

use crate::engine;
use crate::guard;
use crate::product::Product;
use oracle::cases::any_sheet::Generator;
use oracle::cases::{block_sheet, verdict_node};
use oracle::comparisons::node_times::slowest;
use oracle::comparisons::times::statements;
use oracle::judges::node_limits;
use oracle::judges::reader::read;
use oracle::sheets::encode::encode;
use oracle::sheets::from_text::write;
use oracle::sheets::names::mnemonic::{JNE, TEST, XOR};
use oracle::sheets::syntax::*;
use std::ffi::c_int;
use std::fmt::Write as _;
use std::hint::black_box;
use std::io;

/// Room for a line of each instruction that a sheet can have.
const ROOM: usize = 2_048 * 18;

/// Processor time that one measurement takes at least, in nanoseconds, and how
/// many of them are made of each side, in turn; the least counts.
const LEAST: f64 = 2e6;
const ROUNDS: usize = 40;

/// Sheets that take longer are measured less often.
const LONG: f64 = 1e8;
const FEW_ROUNDS: usize = 3;

#[repr(C)]
struct Time {
    seconds: i64,
    nanoseconds: i64,
}

extern "C" {
    fn clock_gettime(clock: c_int, time: *mut Time) -> c_int;
}

/// Nanoseconds that this thread has run.
fn processor_time() -> f64 {
    const THREAD: c_int = 3;
    let mut time = Time { seconds: 0, nanoseconds: 0 };
    let failed = unsafe { clock_gettime(THREAD, &mut time) };
    assert!(failed == 0, "the system has a clock for threads");
    time.seconds as f64 * 1e9 + time.nanoseconds as f64
}

/// Nanoseconds for a call of each side, the least of several measurements that
/// are made in turn.
fn each(sides: &mut [&mut dyn FnMut()]) -> Vec<f64> {
    let timed = |side: &mut &mut dyn FnMut(), calls: usize| {
        let start = processor_time();
        (0..calls).for_each(|_| side());
        processor_time() - start
    };
    let calls: Vec<usize> = sides
        .iter_mut()
        .map(|side| {
            let mut calls = 1;
            while timed(side, calls) < LEAST && calls < 1 << 24 {
                calls *= 2;
            }
            calls
        })
        .collect();
    let mut least = vec![f64::INFINITY; sides.len()];
    let mut round = 0;
    while round < ROUNDS && (round < FEW_ROUNDS || least.iter().all(|time| *time < LONG)) {
        for (number, side) in sides.iter_mut().enumerate() {
            least[number] = least[number].min(timed(side, calls[number]) / calls[number] as f64);
        }
        round += 1;
    }
    least
}

struct Row {
    name: String,
    bytes: usize,
    lines: u64,
    /// How many times as fast as the given source the listing is to be.
    goal: Option<f64>,
    product: f64,
    given: Option<f64>,
}

/// Both sides on some sheets, one after the other.
fn row(product: &mut Product, name: &str, goal: Option<f64>, sheets: &[Vec<u8>]) -> Row {
    let lines = sheets.iter().map(|sheet| product.listing(sheet, ROOM).0);
    let lines = lines.map(|answer| if answer.number == 0 { answer.out } else { 0 }).sum();
    let judge = |sheet: &[u8]| read(sheet).map(|accepted| engine::branches(&accepted.sheet));
    let judged = sheets.iter().all(|sheet| !matches!(judge(sheet), Ok(None)));
    let mut ours = || {
        sheets.iter().for_each(|sheet| {
            black_box(product.call(black_box(sheet), ROOM));
        })
    };
    let mut theirs = || {
        sheets.iter().for_each(|sheet| {
            let _ = black_box(judge(black_box(sheet)));
        })
    };
    let mut sides: Vec<&mut dyn FnMut()> = vec![&mut ours];
    if judged {
        sides.push(&mut theirs);
    }
    let times = each(&mut sides);
    let bytes = sheets.iter().map(Vec::len).sum();
    let given = times.get(1).copied();
    Row { name: name.to_string(), bytes, lines, goal, product: times[0], given }
}

const HEAD: &str = "bytes | lines | listing (µs) | the given Rust (µs) | times as fast | goal |";

fn show(row: &Row) {
    let Row { name, bytes, lines, product, .. } = row;
    let goal = row.goal.map_or(String::new(), |goal| goal.to_string());
    let micro = |time: f64| match time / 1e3 {
        small if small < 10.0 => format!("{small:.3}"),
        large => format!("{large:.1}"),
    };
    let (given, times) = match row.given {
        Some(given) => (micro(given), format!("{:.1}", given / product)),
        None => ("not run to its end".to_string(), String::new()),
    };
    println!("| {name} | {bytes} | {lines} | {} | {given} | {times} | {goal} |", micro(*product));
}

/// So many pieces of code of four instructions, a block for each, and so many
/// nodes, each with the jump of a piece.
fn mixed(pieces: usize, nodes: usize) -> Sheet {
    let mut generator = Generator::new(7, 0, 0);
    let mut sheet = Sheet::default();
    for piece in 0..pieces as u64 {
        let mut code = block_sheet::piece(&mut generator);
        code.truncate(4);
        for (insn, address) in code.iter_mut().zip(16 * piece..) {
            insn.address = address;
        }
        sheet.instructions.extend(code);
        sheet.blocks.push(Block { from: 16 * piece, to: 16 * piece + 16 });
    }
    sheet.instructions.truncate(2_048);
    for number in 0..nodes {
        let mut node = verdict_node::node(&mut generator);
        while node.condition.len() > 40
            || node.statements.len() > 8
            || node_limits::refusal(&node).is_some()
        {
            node = verdict_node::node(&mut generator);
        }
        node.addresses = vec![16 * (number % pieces.max(1)) as u64 + 3];
        sheet.nodes.push(node);
    }
    sheet
}

/// Every block is the whole code, so that each instruction is stepped over for
/// each block: the branch at its end is undecided.
fn overlapping() -> Sheet {
    let register = Register { class: 1, index: 0, size: 32, offset: 0 };
    let both = [Some(Operand::Register(register)); 2];
    let mut instructions: Vec<Instruction> = (0..2_046)
        .map(|address| Instruction {
            address,
            mnemonic: if address % 2 == 0 { XOR } else { TEST },
            first: both[0],
            second: both[1],
            ..Default::default()
        })
        .collect();
    instructions.push(Instruction { address: 2_046, flags: Some(31), ..Default::default() });
    instructions.push(Instruction {
        address: 2_047,
        mnemonic: JNE,
        target: Some(9),
        ..Default::default()
    });
    Sheet { instructions, blocks: vec![Block { from: 0, to: 2_048 }; 1_024], nodes: Vec::new() }
}

/// Nodes whose condition multiplies 64 terms by 64 again and again: a product
/// of six sums, times itself, which is itself.
fn products(nodes: usize) -> Sheet {
    let factors: Vec<String> = (0..6).map(|k| format!("(+ v{} v{})", 2 * k, 2 * k + 1)).collect();
    let joined = |parts: &[String]| {
        parts.iter().skip(1).fold(parts[0].clone(), |a, b| format!("(* {a} {b})"))
    };
    let once = joined(&factors);
    let often = joined(&vec![once; 5]);
    let vars = vec!["u32"; 12].join(" ");
    let text = format!("node\n  vars {vars}\n  cond (== {often} 0:4)\n").repeat(nodes);
    let bytes = write(&text).unwrap_or_else(|error| panic!("{error}")).bytes;
    read(&bytes).unwrap_or_else(|refusal| panic!("{refusal}")).sheet
}

fn bytes(sheet: &Sheet) -> Vec<u8> {
    encode(sheet).bytes
}

/// So many nodes with conditions of at most nine records behind two assignments
/// at most.
fn plain(nodes: usize) -> Sheet {
    let short = |node: &Node| node.condition.len() <= 9 && node.statements.len() <= 2;
    let all = (0..).map(|index| verdict_node::numbered(31, index));
    Sheet { nodes: all.filter(short).take(nodes).collect(), ..Default::default() }
}

/// The sheets that are timed, each with its name and the goal.
fn sheets() -> Vec<(&'static str, Option<f64>, Vec<u8>)> {
    let text = |text: &str| write(text).unwrap_or_else(|error| panic!("{error}")).bytes;
    let fitting = |node: usize| (65_536 - 6) / (node - 6);
    let fitting = [bytes(&products(1)), slowest(1)].map(|sheet| fitting(sheet.len()).min(1_024));
    let first = text("insn 0x10 xor eax eax\ninsn 0x12 je target 0x20\nblock 0x10 0x14\n");
    let branch = text("insn 0x10 je target 0x20\nblock 0x10 0x12\n");
    let code = Sheet { blocks: Vec::new(), ..mixed(512, 0) };
    vec![
        ("one block of two instructions", Some(5.0), first),
        ("one branch", Some(4.0), branch),
        ("empty", Some(1.5), vec![0; 6]),
        ("refused at its first count", Some(1.5), vec![255; 6]),
        ("512 blocks, no nodes", Some(6.0), bytes(&mixed(512, 0))),
        ("2,048 instructions, no blocks", Some(6.0), bytes(&code)),
        ("1,024 blocks that are the whole code, undecided", Some(8.0), bytes(&overlapping())),
        ("one node", Some(5.0), bytes(&mixed(0, 1))),
        ("a plain node", Some(5.0), bytes(&plain(1))),
        ("a node that is true", Some(2.0), text("node\ncond true\n")),
        ("a function: 10 blocks, 4 nodes", Some(8.0), bytes(&mixed(10, 4))),
        ("a function: 50 blocks, 20 nodes", Some(8.0), bytes(&mixed(50, 20))),
        ("1,024 nodes", Some(8.0), bytes(&mixed(0, 1_024))),
        ("1,000 plain nodes", Some(8.0), bytes(&plain(1_000))),
        ("512 blocks, 512 nodes", Some(8.0), bytes(&mixed(512, 512))),
        ("65,536 0-statements", Some(20.0), bytes(&statements())),
        ("nodes of 64 × 64 terms, 64 KiB", None, bytes(&products(fitting[0]))),
        ("the slowest nodes known, 64 KiB", None, slowest(fitting[1])),
    ]
}

/// The sheets of a folder, as `pomthija list --save` leaves them.
fn saved(folder: &str) -> io::Result<Vec<Vec<u8>>> {
    let mut paths: Vec<_> =
        std::fs::read_dir(folder)?.map(|entry| Ok(entry?.path())).collect::<io::Result<_>>()?;
    paths.retain(|path| path.extension().is_some_and(|end| end == "sheet"));
    paths.sort();
    paths.iter().map(std::fs::read).collect()
}

/// How time grows with the number of disjoint blocks: a table, and a plot.
fn growth(product: &mut Product) -> Vec<Row> {
    (0..=9)
        .map(|power| {
            let pieces = 1 << power;
            row(product, &format!("{pieces}"), None, &[bytes(&mixed(pieces, pieces / 4))])
        })
        .collect()
}

/// Both sides' times over the sheet's bytes, on logarithmic axes.
fn plot(rows: &[Row]) -> String {
    let x = |bytes: usize| 60.0 + 110.0 * ((bytes as f64).log10() - 1.5);
    let y = |time: f64| 360.0 - 60.0 * (time.log10() - 2.0);
    let line = |times: &dyn Fn(&Row) -> Option<f64>, colour: &str| {
        let points: Vec<String> = rows
            .iter()
            .filter_map(|row| Some(format!("{:.1},{:.1}", x(row.bytes), y(times(row)?))))
            .collect();
        format!("<polyline fill='none' stroke='{colour}' points='{}'/>\n", points.join(" "))
    };
    let mut svg = String::from(
        "<svg xmlns='http://www.w3.org/2000/svg' width='560' height='400' font-family='sans-serif' font-size='11'>\n",
    );
    for power in 2..=7 {
        let at = y(10f64.powi(power));
        let label = ["0.1 µs", "1 µs", "10 µs", "100 µs", "1 ms", "10 ms"][power as usize - 2];
        let _ = writeln!(svg, "<line x1='60' x2='540' y1='{at}' y2='{at}' stroke='#ddd'/>");
        let _ = writeln!(svg, "<text x='8' y='{}'>{label}</text>", at + 4.0);
    }
    for (size, label) in
        [(100, "100 bytes"), (1_000, "1,000"), (10_000, "10,000"), (100_000, "100,000")]
    {
        let at = x(size);
        let _ = writeln!(svg, "<line x1='{at}' x2='{at}' y1='40' y2='365' stroke='#ddd'/>");
        let _ = writeln!(svg, "<text x='{}' y='380'>{label}</text>", at - 14.0);
    }
    svg += &line(&|row| Some(row.product), "#06c");
    svg += &line(&|row| row.given, "#c60");
    svg += "<text x='420' y='60' fill='#06c'>listing</text>\n";
    svg += "<text x='420' y='76' fill='#c60'>the given Rust</text>\n</svg>\n";
    svg
}

/// Prints both tables; the plot goes into a file. With a folder of sheets, as
/// of a program's functions, these are timed together.
pub fn run(file: &str, folder: Option<&str>) -> io::Result<()> {
    guard::hush();
    let mut product = Product::new()?;
    println!("| sheet | {HEAD}\n|---|---|---|---|---|---|---|");
    for (name, goal, sheet) in sheets() {
        show(&row(&mut product, name, goal, &[sheet]));
    }
    if let Some(folder) = folder {
        let sheets = saved(folder)?;
        let name = format!("{} sheets of a program", sheets.len());
        show(&row(&mut product, &name, Some(7.0), &sheets));
    }
    println!("\n| disjoint blocks | {HEAD}\n|---|---|---|---|---|---|---|");
    let rows = growth(&mut product);
    rows.iter().for_each(show);
    std::fs::write(file, plot(&rows))
}
