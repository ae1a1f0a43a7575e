//! The sheet writer: from text to bytes. README.md describes the text.
//!
//! The writer checks the text alone. What a sheet must keep to (limits,
//! types, trees, rising addresses) is left to the reader, so that faulty
//! sheets can be written too.

use crate::sheets::encode::{Encoder, Field, Forced};
use crate::sheets::names::{flag, mnemonic, number_of, operator, value_type};
use crate::sheets::syntax::*;
use crate::sheets::words::{lines, parse_hex, parse_number, Line, Parsed};

pub struct Written {
    pub bytes: Vec<u8>,
    pub fields: Vec<Field>,
}

pub fn write(text: &str) -> Parsed<Written> {
    write_from(text, 1)
}

/// As `write`, for a text that starts at line `first_line` of a larger one.
pub fn write_from(text: &str, first_line: usize) -> Parsed<Written> {
    let mut writer = Writer::default();
    for mut line in lines(text, first_line)? {
        writer.last_line = line.number;
        writer.line(&mut line)?;
        line.finish()?;
    }
    writer.finish()?;
    Ok(Written { bytes: writer.out.bytes, fields: writer.out.fields })
}

/// A count that grows with its records unless it was forced.
#[derive(Default)]
struct Counter {
    place: usize,
    records: u64,
    forced: bool,
}

/// How far the open node has been written.
#[derive(Clone, Copy, PartialEq, PartialOrd)]
enum Part {
    Started,
    Variables,
    Statements,
    Condition,
    Addresses,
}

const SECTIONS: [&str; 3] = ["instruction count", "block count", "node count"];

#[derive(Default)]
struct Writer {
    out: Encoder,
    /// How many sections have been opened.
    sections: usize,
    section: Counter,
    node: Option<Part>,
    statements: Counter,
    last_address: u64,
    last_line: usize,
    stopped: bool,
}

impl Writer {
    fn line(&mut self, line: &mut Line) -> Parsed<()> {
        let word = line.next("a line's first word")?;
        if self.stopped && word != "raw" {
            return line.error("only raw lines may follow stop");
        }
        match word.as_str() {
            "insn" => self.insn(line),
            "block" => self.block(line),
            "node" => {
                self.record_of(3, line)?;
                self.node = Some(Part::Started);
                Ok(())
            }
            "insns" => self.force_section(1, line),
            "blocks" => self.force_section(2, line),
            "nodes" => self.force_section(3, line),
            "vars" => self.variables(line),
            "statements" => self.force_statements(line),
            "assign" => self.assign(line),
            "other" => {
                self.statement(line)?;
                self.out.other();
                Ok(())
            }
            "cond" => self.condition(line),
            "addresses" => self.addresses(line),
            "raw" => self.raw(line),
            "stop" => {
                self.stopped = true;
                Ok(())
            }
            _ => line.error(format!("unknown line '{word}'")),
        }
    }

    fn finish(&mut self) -> Parsed<()> {
        if self.stopped {
            return Ok(());
        }
        let end = self.last_line;
        self.open_section(3, None).or_else(|message| crate::sheets::words::error(end, message))?;
        self.close_node().or_else(|message| crate::sheets::words::error(end, message))
    }

    /// Writes the counts up to that of section `wanted`.
    fn open_section(&mut self, wanted: usize, forced: Option<u16>) -> Result<(), String> {
        if self.sections > wanted {
            return Err("instructions come first, then blocks, then nodes".to_string());
        }
        while self.sections < wanted {
            self.sections += 1;
            let value = if self.sections == wanted { forced } else { None };
            let place = self.out.count(SECTIONS[self.sections - 1], value.unwrap_or(0));
            self.section = Counter { place, records: 0, forced: value.is_some() };
        }
        Ok(())
    }

    fn force_section(&mut self, section: usize, line: &mut Line) -> Parsed<()> {
        let count = line.forced_count()?;
        if count.is_none() || self.sections >= section {
            return line.error("'count N' is expected here, before the section's records");
        }
        self.open_section(section, count).or_else(|message| line.error(message))
    }

    /// Makes ready for one more record of a section.
    fn record_of(&mut self, section: usize, line: &Line) -> Parsed<()> {
        self.close_node().or_else(|message| line.error(message))?;
        self.open_section(section, None).or_else(|message| line.error(message))?;
        let counted = count_one(&mut self.out, &mut self.section);
        counted.or_else(|message| line.error(message))
    }

    fn insn(&mut self, line: &mut Line) -> Parsed<()> {
        self.record_of(1, line)?;
        let (insn, forced) = instruction(line, self.last_address)?;
        self.last_address = insn.address;
        self.out.instruction(&insn, forced);
        Ok(())
    }

    fn block(&mut self, line: &mut Line) -> Parsed<()> {
        self.record_of(2, line)?;
        let from = line.number("an address", u64::MAX)?;
        let to = line.number("an address", u64::MAX)?;
        self.out.block(Block { from, to });
        Ok(())
    }

    /// Writes the open node's parts before `part`, as empty ones; a condition
    /// cannot be left out.
    fn reach(&mut self, part: Part) -> Result<(), String> {
        let Some(mut now) = self.node else {
            return Err("this line belongs into a node".to_string());
        };
        if now >= part && part != Part::Statements || now > part {
            return Err("a node's parts are vars, statements, cond, addresses".to_string());
        }
        if now < Part::Variables && part > Part::Variables {
            self.out.variables(&[], 0);
            now = Part::Variables;
        }
        if now < Part::Statements && part > Part::Statements {
            self.out.count("statement count", 0);
            now = Part::Statements;
        }
        if now < Part::Condition && part > Part::Condition {
            return Err("the node has no condition".to_string());
        }
        self.node = Some(part);
        Ok(())
    }

    fn close_node(&mut self) -> Result<(), String> {
        if self.node.is_some_and(|part| part < Part::Addresses) {
            self.reach(Part::Addresses)?;
            self.out.addresses(&[], 0);
        }
        self.node = None;
        Ok(())
    }

    fn variables(&mut self, line: &mut Line) -> Parsed<()> {
        self.reach(Part::Variables).or_else(|message| line.error(message))?;
        let forced = line.forced_count()?;
        let mut types = Vec::new();
        while line.peek().is_some() {
            types.push(type_code(line)?);
        }
        self.out.variables(&types, forced.unwrap_or(types.len() as u16));
        Ok(())
    }

    fn open_statements(&mut self, line: &Line, forced: Option<u16>) -> Parsed<()> {
        let open = self.node == Some(Part::Statements);
        self.reach(Part::Statements).or_else(|message| line.error(message))?;
        if !open {
            let place = self.out.count("statement count", forced.unwrap_or(0));
            self.statements = Counter { place, records: 0, forced: forced.is_some() };
        }
        Ok(())
    }

    fn force_statements(&mut self, line: &mut Line) -> Parsed<()> {
        let count = line.forced_count()?;
        if count.is_none() || self.node == Some(Part::Statements) {
            return line.error("'count N' is expected here, before the statements");
        }
        self.open_statements(line, count)
    }

    fn statement(&mut self, line: &Line) -> Parsed<()> {
        self.open_statements(line, None)?;
        let counted = count_one(&mut self.out, &mut self.statements);
        counted.or_else(|message| line.error(message))
    }

    fn assign(&mut self, line: &mut Line) -> Parsed<()> {
        self.statement(line)?;
        let word = line.next("a variable")?;
        let Some(variable) = variable_number(word.strip_prefix('v').unwrap_or(&word)) else {
            return line.error(format!("a variable is expected, not '{word}'"));
        };
        let (value, count) = expression(line)?;
        self.out.assign(variable, &value, count);
        Ok(())
    }

    fn condition(&mut self, line: &mut Line) -> Parsed<()> {
        self.reach(Part::Condition).or_else(|message| line.error(message))?;
        let (condition, count) = expression(line)?;
        self.out.expression(&condition, count);
        Ok(())
    }

    fn addresses(&mut self, line: &mut Line) -> Parsed<()> {
        self.reach(Part::Addresses).or_else(|message| line.error(message))?;
        let forced = line.forced_count()?;
        let mut list = Vec::new();
        while line.peek().is_some() {
            list.push(line.number("an address", u64::MAX)?);
        }
        self.out.addresses(&list, forced.unwrap_or(list.len() as u16));
        Ok(())
    }

    fn raw(&mut self, line: &mut Line) -> Parsed<()> {
        while line.peek().is_some() {
            let word = line.next("bytes")?;
            match parse_hex(&word) {
                Some(bytes) => self.out.raw(&bytes),
                None => return line.error(format!("'{word}' is not pairs of hexadecimal digits")),
            }
        }
        Ok(())
    }
}

fn count_one(out: &mut Encoder, counter: &mut Counter) -> Result<(), String> {
    counter.records += 1;
    let count = u16::try_from(counter.records);
    match count {
        _ if counter.forced => Ok(()),
        Ok(count) => {
            out.set_count(counter.place, count);
            Ok(())
        }
        Err(_) => Err("more records than a count can hold".to_string()),
    }
}

/// The fields of an `insn` line; `last` is the address that `+N` adds to.
fn instruction(line: &mut Line, last: u64) -> Parsed<(Instruction, Forced)> {
    let mut insn = Instruction { address: insn_address(line, last)?, ..Default::default() };
    let mut forced = Forced::default();
    insn.mnemonic = coded(line, "a mnemonic", mnemonic::NAMES)?;
    while let Some(word) = line.peek().map(str::to_string) {
        match word.as_str() {
            "map" => {
                line.expect("map")?;
                forced.map = Some(line.byte("a map byte")?);
            }
            "call" => insn.call_like = line.take("call"),
            "target" => {
                line.expect("target")?;
                insn.target = Some(line.number("an address", u64::MAX)?);
            }
            "writes" => {
                line.expect("writes")?;
                forced.written = line.forced_count()?;
                insn.written = Some(written(line)?);
            }
            "flags" => {
                line.expect("flags")?;
                insn.flags = Some(flags(line)?);
            }
            _ if insn.second.is_some() => return line.error("a third operand"),
            _ if insn.first.is_some() => insn.second = Some(operand(line)?),
            _ => insn.first = Some(operand(line)?),
        }
    }
    Ok((insn, forced))
}

fn insn_address(line: &mut Line, last: u64) -> Parsed<u64> {
    let word = line.next("an address")?;
    let address = match word.strip_prefix('+') {
        Some(step) => parse_number(step).and_then(|step| last.checked_add(step)),
        None => parse_number(&word),
    };
    address.map_or_else(|| line.error(format!("an address is expected, not '{word}'")), Ok)
}

/// A name from a table, or any byte as a number.
fn coded(line: &mut Line, what: &str, table: &[&str]) -> Parsed<u8> {
    match line.peek().and_then(|word| number_of(table, word)) {
        Some(code) => {
            line.next(what)?;
            Ok(code)
        }
        None => line.byte(what),
    }
}

fn type_code(line: &mut Line) -> Parsed<u8> {
    coded(line, "a type", value_type::NAMES)
}

fn operand(line: &mut Line) -> Parsed<Operand> {
    if line.take("mem") {
        return Ok(Operand::Memory);
    }
    if line.take("operand") {
        return line.byte("an operand code").map(Operand::Unknown);
    }
    if let Some(value) = line.peek().and_then(parse_number) {
        line.next("an immediate")?;
        return Ok(Operand::Immediate(value));
    }
    match register(line)? {
        Some(register) => Ok(Operand::Register(register)),
        None => line.error(format!("unknown operand '{}'", line.peek().unwrap_or(""))),
    }
}

/// A register by name or as `reg(class,index,size,offset)`, if one stands here.
fn register(line: &mut Line) -> Parsed<Option<Register>> {
    if line.take("reg") {
        line.expect("(")?;
        let register = Register {
            class: line.byte("a class")?,
            index: line.byte("an index")?,
            size: line.byte("a size")?,
            offset: line.byte("an offset")?,
        };
        line.expect(")")?;
        return Ok(Some(register));
    }
    let named = line.peek().and_then(register_by_name);
    if named.is_some() {
        line.next("a register")?;
    }
    Ok(named)
}

fn written(line: &mut Line) -> Parsed<Vec<Register>> {
    let mut list = Vec::new();
    while let Some(register) = register(line)? {
        list.push(register);
    }
    Ok(list)
}

/// Flag names, or one number for the byte itself.
fn flags(line: &mut Line) -> Parsed<u8> {
    if line.peek().is_some_and(|word| parse_number(word).is_some()) {
        return line.byte("a flag byte");
    }
    let mut byte = 0;
    while let Some(bit) = line.peek().and_then(|word| number_of(flag::NAMES, word)) {
        line.next("a flag")?;
        byte |= 1 << bit;
    }
    Ok(byte)
}

/// An expression as a prefix tree, or as `records [count N] [ ... ]`; with
/// it the record count to write.
fn expression(line: &mut Line) -> Parsed<(Expression, u16)> {
    let mut records = Vec::new();
    let mut forced = None;
    if line.take("records") {
        forced = line.forced_count()?;
        line.expect("[")?;
        while !line.take("]") {
            let word = line.next("a record")?;
            records.push(record(&word, line)?);
        }
    } else {
        tree(line, &mut records)?;
    }
    let count = records.len() as u16;
    Ok((records, forced.unwrap_or(count)))
}

/// One prefix tree, written out in postfix order.
fn tree(line: &mut Line, records: &mut Vec<Record>) -> Parsed<()> {
    if !line.take("(") {
        let word = line.next("an expression")?;
        let leaf = record(&word, line)?;
        if leaf.children() > 0 || matches!(leaf, Record::Effect(_) | Record::Unknown(_)) {
            return line.error(format!("'{word}' needs parentheses around it"));
        }
        records.push(leaf);
        return Ok(());
    }
    let word = line.next("an operator")?;
    let root = record(&word, line)?;
    for _ in 0..root.children() {
        tree(line, records)?;
    }
    records.push(root);
    line.expect(")")
}

/// The record that `word` starts; a type or code is taken from the line.
fn record(word: &str, line: &mut Line) -> Parsed<Record> {
    if let Some(code) = number_of(operator::NAMES, word) {
        return Ok(Record::Binary(code));
    }
    match word {
        "true" => return Ok(Record::True),
        "false" => return Ok(Record::False),
        "?" => return Ok(Record::Ternary),
        "effect" => return type_code(line).map(Record::Effect),
        "load" => return type_code(line).map(Record::Load),
        "cast" => return type_code(line).map(Record::Cast),
        "op" => return line.byte("an operator").map(Record::Binary),
        "kind" => return line.byte("a record kind").map(Record::Unknown),
        _ => {}
    }
    let variable = word.strip_prefix('v').and_then(variable_number).map(Record::Variable);
    match variable.or_else(|| constant(word)) {
        Some(record) => Ok(record),
        None => line.error(format!("unknown record '{word}'")),
    }
}

fn variable_number(digits: &str) -> Option<u8> {
    parse_number(digits).and_then(|number| u8::try_from(number).ok())
}

/// `value:width`.
fn constant(word: &str) -> Option<Record> {
    let (value, width) = word.split_once(':')?;
    let width = parse_number(width).and_then(|width| u8::try_from(width).ok())?;
    Some(Record::Constant { width, value: parse_number(value)? })
}
