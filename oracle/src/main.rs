//! The commands. README.md has an example of each.

use oracle::answers::ABSENT;
use oracle::comparisons::frames::{self, Question};
use oracle::comparisons::{
    blocks, evaluations, listings, node_times, nodes, processor, reading, runs, times,
};
use oracle::judges::{evaluator, node_verdict, reader};
use oracle::sheets::words;
use oracle::stored;
use std::io::{self, BufReader, BufWriter, Read, Write};
use std::process::ExitCode;

const USAGE: &str = "usage:
  oracle read SHEET                the reader's answer in one line
  oracle answer                    answers frames, but for those of blocks and sentences
  oracle reading --program PATH [--sheets N] [--seed S]
  oracle reading --stub [--sheets N] [--seed S]
  oracle bench [--program PATH [--given PATH]] [--save SHEET]
  oracle stored FRAMES LINES --given PATH
                                   the stored cases, and the lines due
  oracle blocks --program PATH --given PATH [--sheets N] [--seed S]
  oracle blocks --stub --given PATH [--sheets N] [--seed S]
  oracle nodes --program PATH [--given PATH] [--nodes N] [--seed S] [--smallest]
  oracle nodes --stub [--given PATH] [--nodes N] [--seed S] [--smallest]
  oracle runs --program PATH [--runs N] [--seed S]
  oracle runs --stub [--runs N] [--seed S]
  oracle runs --given PATH [--runs N] [--seed S]
  oracle processor --program PATH [--runs N] [--seed S]
  oracle listings FOLDER --given PATH
                                   sheets and the listings beside them
  oracle evaluations --program PATH [--cases N] [--seed S]
  oracle evaluations --stub [--cases N] [--seed S]
A file name of - is standard input or output.";

type Outcome = Result<bool, String>;

fn main() -> ExitCode {
    let args: Vec<String> = std::env::args().skip(1).collect();
    match command(&args) {
        Ok(true) => ExitCode::SUCCESS,
        Ok(false) => ExitCode::from(1),
        Err(message) => {
            eprintln!("{message}");
            ExitCode::from(2)
        }
    }
}

fn command(args: &[String]) -> Outcome {
    let words: Vec<&str> = args.iter().map(String::as_str).collect();
    match words.as_slice() {
        ["read", sheet] => read_sheet(sheet),
        ["answer"] => answer(),
        ["reading", options @ ..] => compare_reading(&Options::parse(options)?),
        ["bench", options @ ..] => bench(&Options::parse(options)?),
        ["processor", options @ ..] => judge_by_processor(&Options::parse(options)?),
        ["stored", frames, lines, options @ ..] => store(frames, lines, &Options::parse(options)?),
        ["blocks", options @ ..] => compare_blocks(&Options::parse(options)?),
        ["nodes", options @ ..] => compare_nodes(&Options::parse(options)?),
        ["runs", options @ ..] => judge_by_runs(&Options::parse(options)?),
        ["listings", folder, options @ ..] => compare_listings(folder, &Options::parse(options)?),
        ["evaluations", options @ ..] => compare_evaluations(&Options::parse(options)?),
        _ => Err(USAGE.to_string()),
    }
}

#[derive(Default)]
struct Options {
    program: Option<String>,
    given: Option<String>,
    stub: bool,
    smallest: bool,
    sheets: Option<u64>,
    nodes: Option<u64>,
    runs: Option<u64>,
    cases: Option<u64>,
    seed: Option<u64>,
    save: Option<String>,
}

impl Options {
    fn parse(words: &[&str]) -> Result<Options, String> {
        let mut options = Options::default();
        let mut words = words.iter();
        while let Some(word) = words.next() {
            let plain = match *word {
                "--stub" => Some(&mut options.stub),
                "--smallest" => Some(&mut options.smallest),
                _ => None,
            };
            if let Some(plain) = plain {
                *plain = true;
                continue;
            }
            let value = words.next().ok_or_else(|| format!("{word} needs a value\n{USAGE}"))?;
            let number = || words::parse_number(value).ok_or(format!("{word} needs a number"));
            match *word {
                "--program" => options.program = Some(value.to_string()),
                "--given" => options.given = Some(value.to_string()),
                "--save" => options.save = Some(value.to_string()),
                "--sheets" => options.sheets = Some(number()?),
                "--nodes" => options.nodes = Some(number()?),
                "--runs" => options.runs = Some(number()?),
                "--cases" => options.cases = Some(number()?),
                "--seed" => options.seed = Some(number()?),
                _ => return Err(format!("unknown option {word}\n{USAGE}")),
            }
        }
        Ok(options)
    }

    /// The program to run; `--stub` stands for this program's own answers.
    fn command(&self) -> Result<Option<Vec<String>>, String> {
        if !self.stub {
            return Ok(self.program.as_ref().map(|path| vec![path.clone()]));
        }
        let path = std::env::current_exe().map_err(|error| error.to_string())?;
        Ok(Some(vec![path.to_string_lossy().to_string(), "answer".to_string()]))
    }
}

fn input(path: &str) -> Result<Vec<u8>, String> {
    let mut bytes = Vec::new();
    let outcome = match path {
        "-" => io::stdin().read_to_end(&mut bytes).map(|_| ()),
        _ => std::fs::read(path).map(|content| bytes = content),
    };
    outcome.map_err(|error| format!("{path}: {error}"))?;
    Ok(bytes)
}

fn output(path: &str, bytes: &[u8]) -> Result<(), String> {
    let outcome = match path {
        "-" => io::stdout().write_all(bytes),
        _ => std::fs::write(path, bytes),
    };
    outcome.map_err(|error| format!("{path}: {error}"))
}

fn read_sheet(sheet: &str) -> Outcome {
    println!("{}", reader::line(&reader::read(&input(sheet)?)));
    Ok(true)
}

fn answer() -> Outcome {
    let mut input = BufReader::new(io::stdin());
    let mut output = BufWriter::new(io::stdout());
    let line = |question: &Question| match question {
        Question::Reading(sheet) => Ok(reader::line(&reader::read(sheet))),
        Question::Blocks(_) | Question::Sentences(_) => {
            Err(io::Error::other("the given source answers this"))
        }
        Question::Nodes(sheet) => Ok(node_verdict::line(sheet)),
        Question::Evaluation { sheet, node, sets } => {
            Ok(evaluator::evaluations(sheet, *node, sets))
        }
    };
    frames::serve(&mut input, &mut output, line).map_err(|error| error.to_string())?;
    Ok(true)
}

fn compare_reading(options: &Options) -> Outcome {
    let Some(program) = options.command()? else {
        return Err(format!("compare needs --program or --stub\n{USAGE}"));
    };
    let (sheets, seed) = (options.sheets.unwrap_or(100_000), options.seed.unwrap_or(1));
    reading::compare(&program, sheets, seed).map_err(|error| format!("{}: {error}", program[0]))
}

fn compare_blocks(options: &Options) -> Outcome {
    let Some(given) = &options.given else {
        return Err(format!("verdicts needs --given\n{USAGE}"));
    };
    let program = match &options.program {
        _ if options.stub => given,
        Some(path) => path,
        None => return Err(format!("verdicts needs --program or --stub\n{USAGE}")),
    };
    let job = blocks::Job {
        program: std::slice::from_ref(program),
        given: std::slice::from_ref(given),
        sheets: options.sheets.unwrap_or(10_000),
        seed: options.seed.unwrap_or(1),
    };
    let programs = format!("{program} or {given}");
    blocks::compare(&job).map_err(|error| format!("{programs}: {error}"))
}

fn compare_nodes(options: &Options) -> Outcome {
    let Some(program) = options.command()? else {
        return Err(format!("nodes needs --program or --stub\n{USAGE}"));
    };
    let job = nodes::Job {
        program: &program,
        given: options.given.as_ref().map(std::slice::from_ref),
        nodes: options.nodes.unwrap_or(20_000),
        seed: options.seed.unwrap_or(1),
        smallest: options.smallest,
    };
    nodes::compare(&job).map_err(|error| format!("{}: {error}", program[0]))
}

/// The given source's verdicts are judged as they are: what docs/DIFFERENCES.md
/// says must be found.
fn judge_by_runs(options: &Options) -> Outcome {
    let (program, verdicts) = match (options.command()?, &options.given) {
        (Some(program), None) => (program, runs::Verdicts::OfAProgram),
        (None, Some(given)) => (vec![given.clone()], runs::Verdicts::GivenAsTheyAre),
        _ => return Err(format!("runs needs --program, --stub or --given\n{USAGE}")),
    };
    let amounts = [options.runs.unwrap_or(200_000), options.seed.unwrap_or(1)];
    let judged = runs::judge(&program, verdicts, amounts);
    judged.map_err(|error| format!("{}: {error}", program[0]))
}

fn judge_by_processor(options: &Options) -> Outcome {
    let Some(program) = &options.program else {
        return Err(format!("processor needs --program\n{USAGE}"));
    };
    let (runs, seed) = (options.runs.unwrap_or(200_000), options.seed.unwrap_or(1));
    let judged = processor::judge(std::slice::from_ref(program), runs, seed);
    judged.map_err(|error| format!("{program}: {error}"))
}

fn compare_evaluations(options: &Options) -> Outcome {
    let Some(program) = options.command()? else {
        return Err(format!("evaluations needs --program or --stub\n{USAGE}"));
    };
    let (cases, seed) = (options.cases.unwrap_or(200_000), options.seed.unwrap_or(1));
    let compared = evaluations::compare(&program, cases, seed);
    compared.map_err(|error| format!("{}: {error}", program[0]))
}

fn compare_listings(folder: &str, options: &Options) -> Outcome {
    let Some(given) = &options.given else {
        return Err(format!("listings needs --given\n{USAGE}"));
    };
    listings::compare(folder, given)
}

fn store(frames: &str, lines: &str, options: &Options) -> Outcome {
    let Some(given) = &options.given else {
        return Err(format!("stored needs --given\n{USAGE}"));
    };
    let list = stored::list(std::slice::from_ref(given))?;
    output(frames, &list.frames)?;
    output(lines, list.text().as_bytes())?;
    println!("{} lines, {} bytes of frames", list.lines.len(), list.frames.len());
    if list.open > 0 {
        println!("{}; {} lines are open", ABSENT, list.open);
    }
    Ok(list.open == 0)
}

fn bench(options: &Options) -> Outcome {
    let program = options.command()?;
    let mut outcome = times::bench(program.as_deref(), options.save.as_deref());
    if let (Some(program), Some(given)) = (&program, &options.given) {
        let nodes = || node_times::bench(program, std::slice::from_ref(given));
        outcome = outcome.and_then(|()| nodes());
    }
    outcome.map_err(|error| error.to_string())?;
    Ok(true)
}
