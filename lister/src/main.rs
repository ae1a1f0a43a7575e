//! The command `pomthija`. docs/LISTER.md describes `list`, docs/TEXT.md the others.

mod engine;
mod progress;

use lister::disassembly::bits::Bits;
use lister::disassembly::listing::{self, Job};
use lister::disassembly::program::{content, Hints, Input, Kind};
use lister::disassembly::{annotated, json, report, steps};
use lister::options::{Known, Options};
use lister::sheets::{from_text, reader, to_text};
use progress::Progress;
use std::ffi::OsString;
use std::io::{self, ErrorKind, Write};
use std::process::ExitCode;
use std::thread;

const HELP: &str = "\
pomthija: which conditional branches of x86 code are always or never taken

  pomthija list FILE               the decided branches of a linked program or library
    --text                         FILE is the output of objdump -d -M intel
    --raw --bits 32|64             FILE is an image without headers,
    --base ADDRESS                 loaded at an address (0)
    --functions FILE               addresses at which functions start, one a line
    --entries FILE                 addresses at which code is entered besides
    --assume-calls                 functions start where direct calls go
    --json                         as JSON
    --annotate                     the disassembly with the verdicts and what is dead by them
    --save FOLDER                  stores the sheets and their listings
    --steps FILE                   stores what is claimed of each instruction
  pomthija write TEXT SHEET        writes a sheet from its text
  pomthija show SHEET              shows a sheet as text, or why it is refused
  pomthija fields TEXT             lists the fields of a text's sheet
  pomthija --help, --version

Options stand anywhere. A file name of - is standard input or output. Addresses are
hexadecimal, with or without 0x; # starts a comment in files of them.
Status: 0 done, 1 refused, 2 wrong usage.";

const KNOWN: Known = Known {
    flags: &["--help", "--version", "--text", "--raw", "--assume-calls", "--json", "--annotate"],
    values: &["--bits", "--base", "--functions", "--entries", "--save", "--steps"],
};

enum Failure {
    Usage(String),
    Refused(String),
}

type Outcome = Result<(), Failure>;

fn main() -> ExitCode {
    let words: Vec<OsString> = std::env::args_os().skip(1).collect();
    let work = thread::Builder::new().stack_size(engine::STACK).spawn(move || command(words));
    let outcome = match work.map(|thread| thread.join()) {
        Ok(Ok(outcome)) => outcome,
        Ok(Err(_)) => return ExitCode::from(1),
        Err(error) => Err(Failure::Refused(error.to_string())),
    };
    match outcome {
        Ok(()) => ExitCode::SUCCESS,
        Err(Failure::Refused(message)) => {
            eprintln!("pomthija: {message}");
            ExitCode::from(1)
        }
        Err(Failure::Usage(message)) => {
            eprintln!("pomthija: {message}; pomthija --help says more");
            ExitCode::from(2)
        }
    }
}

fn command(words: Vec<OsString>) -> Outcome {
    let no_text = |word: OsString| Failure::Usage(format!("{word:?} is no text"));
    let words = words.into_iter().map(|word| word.into_string().map_err(no_text));
    let words = words.collect::<Result<Vec<String>, Failure>>()?;
    let options = Options::parse(&words, &KNOWN).map_err(Failure::Usage)?;
    if options.has("--help") {
        return say(&format!("{HELP}\n"));
    }
    if options.has("--version") {
        let (package, interface) = (env!("CARGO_PKG_VERSION"), engine::version());
        return say(&format!("pomthija {package}, interface {interface}\n"));
    }
    let name = options.words.first().map_or("", String::as_str);
    let (work, words): (fn(&Options) -> Outcome, &[&str]) = match name {
        "list" => (list, &["the file to list"]),
        "write" => (write_sheet, &["the text", "the sheet"]),
        "show" => (show, &["the sheet"]),
        "fields" => (fields, &["the text"]),
        "" => return Err(Failure::Usage("no command is named".to_string())),
        other => return Err(Failure::Usage(format!("'{other}' is no command"))),
    };
    options.expect(words).map_err(Failure::Usage)?;
    if name != "list" {
        options.expect_none().map_err(Failure::Usage)?;
    }
    work(&options)
}

fn refused(path: &str) -> impl Fn(String) -> Failure + '_ {
    move |message| Failure::Refused(format!("{path}: {message}"))
}

/// Writes to standard output. A reader that has seen enough is no failure.
fn say(text: &str) -> Outcome {
    let mut out = io::stdout().lock();
    match out.write_all(text.as_bytes()).and_then(|()| out.flush()) {
        Err(error) if error.kind() != ErrorKind::BrokenPipe => {
            Err(Failure::Refused(format!("standard output: {error}")))
        }
        _ => Ok(()),
    }
}

fn store(path: &str, bytes: &[u8]) -> Outcome {
    let stored = match path {
        "-" => io::stdout().write_all(bytes),
        _ => std::fs::write(path, bytes),
    };
    stored.map_err(|error| refused(path)(error.to_string()))
}

/// An address of the command line or of a file.
fn address(word: &str) -> Option<u64> {
    u64::from_str_radix(word.trim_start_matches("0x"), 16).ok()
}

fn kind(options: &Options) -> Result<Kind, Failure> {
    let usage = |message: &str| Err(Failure::Usage(message.to_string()));
    let (bits, base) = (options.value("--bits"), options.value("--base"));
    let of_code = ["--functions", "--entries"].iter().any(|name| options.value(name).is_some());
    match (options.has("--text"), options.has("--raw")) {
        (true, true) => usage("--text and --raw exclude each other"),
        (true, _) if of_code || options.has("--assume-calls") => {
            usage("--functions, --entries and --assume-calls are not for text")
        }
        (_, false) if bits.is_some() || base.is_some() => usage("--bits and --base are for --raw"),
        (true, _) => Ok(Kind::Text),
        (_, false) => Ok(Kind::Linked),
        (_, true) => {
            let bits = match bits {
                Some("32") => Bits::B32,
                Some("64") => Bits::B64,
                _ => return usage("--raw needs --bits 32 or --bits 64"),
            };
            match address(base.unwrap_or("0")) {
                Some(base) => Ok(Kind::Raw { bits, base }),
                None => usage("--base needs an address"),
            }
        }
    }
}

/// The addresses of a file, one a line.
fn addresses(path: Option<&str>) -> Result<Vec<u64>, Failure> {
    let Some(path) = path else {
        return Ok(Vec::new());
    };
    let text = text_of(path)?;
    let lines = text.lines().map(|line| line.split('#').next().unwrap_or("").trim());
    let lines = lines.enumerate().filter(|(_, line)| !line.is_empty());
    let none = |number: usize| refused(path)(format!("line {}: no address", number + 1));
    lines.map(|(number, line)| address(line).ok_or_else(|| none(number))).collect()
}

fn hints(options: &Options) -> Result<Hints, Failure> {
    Ok(Hints {
        functions: addresses(options.value("--functions"))?,
        entries: addresses(options.value("--entries"))?,
        calls: options.has("--assume-calls"),
    })
}

fn list(options: &Options) -> Outcome {
    if options.has("--json") && options.has("--annotate") {
        return Err(Failure::Usage("--json and --annotate exclude each other".to_string()));
    }
    let path = &options.words[1];
    let (kind, hints) = (kind(options)?, hints(options)?);
    let progress = Progress::start();
    progress.say(|| "the disassembly is read".to_string());
    let input = Input::read(path, kind).map_err(refused(path))?;
    progress.say(|| "entries are looked for".to_string());
    let program = input.program(&hints).map_err(refused(path))?;
    let job = Job {
        judge: &engine::listed,
        save: options.value("--save"),
        progress: &|done, all| progress.say(|| format!("{done} of {all} functions are judged")),
    };
    let listing = listing::list(&program, &job).map_err(refused(path))?;
    drop(progress);
    if let Some(path) = options.value("--steps") {
        store(path, steps::written(&program, &listing).as_bytes())?;
    }
    let lines = match (options.has("--json"), options.has("--annotate")) {
        (true, _) => json::lines(&program, &listing),
        (_, true) => annotated::lines(&program, &listing),
        _ => report::lines(&program, &listing),
    };
    say(&lines.iter().map(|line| format!("{line}\n")).collect::<String>())
}

fn text_of(path: &str) -> Result<String, Failure> {
    let bytes = content(path).map_err(refused(path))?;
    String::from_utf8(bytes).map_err(|_| refused(path)("not text".to_string()))
}

fn written(path: &str) -> Result<from_text::Written, Failure> {
    let written = from_text::write(&text_of(path)?);
    written.map_err(|error| Failure::Refused(format!("{path}, {error}")))
}

fn write_sheet(options: &Options) -> Outcome {
    let written = written(&options.words[1])?;
    store(&options.words[2], &written.bytes)?;
    if let Err(refusal) = reader::read(&written.bytes) {
        eprintln!("note: reading this sheet is {refusal}");
    }
    Ok(())
}

fn fields(options: &Options) -> Outcome {
    let fields = written(&options.words[1])?.fields;
    let lines = fields.iter().map(|field| format!("{:8}  {}\n", field.start, field.name));
    say(&lines.collect::<String>())
}

fn show(options: &Options) -> Outcome {
    let path = &options.words[1];
    let bytes = content(path).map_err(refused(path))?;
    say(&to_text::dump(&bytes))?;
    match reader::read(&bytes) {
        Ok(_) => Ok(()),
        Err(_) => Err(Failure::Refused(format!("{path}: the sheet is refused"))),
    }
}
