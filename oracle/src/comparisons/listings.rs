//! Sheets without nodes and the listings beside them, as `pomthija list --save` stores
//! both, compared with the given source.

use crate::answers::{Line, ABSENT};
use crate::comparisons::frames::{ask_blocks, run};
use crate::judges::listing::{due, Due};
use lister::disassembly::judge::{decided, written};
use std::fs;
use std::path::{Path, PathBuf};

/// Sheets for which one process of the given source is started.
const BATCH: usize = 1_000;

/// Differences that are shown.
const SHOWN: usize = 10;

fn read(path: &Path) -> Result<Vec<u8>, String> {
    fs::read(path).map_err(|error| format!("{}: {error}", path.display()))
}

/// The sheets of a folder.
fn sheets(folder: &str) -> Result<Vec<PathBuf>, String> {
    let failed = |error: std::io::Error| format!("{folder}: {error}");
    let entries = fs::read_dir(folder).map_err(failed)?;
    let paths: Result<Vec<PathBuf>, _> = entries.map(|entry| entry.map(|e| e.path())).collect();
    let is_sheet = |path: &PathBuf| path.extension().is_some_and(|name| name == "sheet");
    let mut paths: Vec<PathBuf> = paths.map_err(failed)?.into_iter().filter(is_sheet).collect();
    paths.sort();
    Ok(paths)
}

/// The listing that is due for a sheet, by the line that answers on its blocks.
fn expected(sheet: &[u8], line: &str) -> Option<String> {
    let Line::Answers { blocks, .. } = Line::parse(line) else {
        return None;
    };
    match due(sheet, &blocks, &[], usize::MAX) {
        Due::Lines(lines) => decided(&lines).map(|branches| written(&branches)),
        Due::Refused(_) | Due::Open => None,
    }
}

/// The differences on some sheets; nothing where the given source is absent.
fn differences(paths: &[PathBuf], given: &str) -> Result<Option<Vec<String>>, String> {
    let sheets: Vec<Vec<u8>> = paths.iter().map(|path| read(path)).collect::<Result<_, _>>()?;
    let mut input = Vec::new();
    sheets.iter().for_each(|sheet| ask_blocks(&mut input, sheet));
    let lines = run(&[given.to_string()], input).map_err(|error| format!("{given}: {error}"))?;
    if lines.first().is_some_and(|line| line == ABSENT) {
        return Ok(None);
    }
    if lines.len() != sheets.len() {
        return Err(format!("{given}: not every sheet is answered"));
    }
    let mut found = Vec::new();
    for ((path, sheet), line) in paths.iter().zip(&sheets).zip(&lines) {
        let listing = read(&path.with_extension("listing"))?;
        let due = expected(sheet, line).ok_or_else(|| format!("{given}: answers {line}"))?;
        if due.as_bytes() != listing {
            found.push(format!("difference in {}, due is\n{due}", path.display()));
        }
    }
    Ok(Some(found))
}

/// Compares a folder; true if there was no difference.
pub fn compare(folder: &str, given: &str) -> Result<bool, String> {
    let sheets = sheets(folder)?;
    let mut found = Vec::new();
    for paths in sheets.chunks(BATCH) {
        match differences(paths, given)? {
            Some(more) => found.extend(more),
            None => {
                println!("{ABSENT}");
                return Ok(true);
            }
        }
    }
    found.iter().take(SHOWN).for_each(|difference| print!("{difference}"));
    println!("compared {} sheets, differences {}", sheets.len(), found.len());
    Ok(found.is_empty())
}
