//! The processor as judge. Bodies of modelled instructions are assembled and
//! run from many start states, with every jump behind them, and a program's
//! verdicts on the same instructions are held against what the jumps did.

use crate::answers::{Answer, Decided, Line, ABSENT, FLAGS};
use crate::cases::random::Random;
use crate::comparisons::blocks::alone;
use crate::comparisons::frames::{ask_blocks, run};
use crate::comparisons::reading::hex;
use crate::judges::assembler::{encodings, Code};
use crate::judges::processor::{Runner, Start, FIRST_JUMP, JUMPS, MISSING};
use crate::sheets::encode::encode;
use crate::sheets::names::flag::{ALL, CF, OF, PF, SF, ZF};
use crate::sheets::names::mnemonic::*;
use crate::sheets::syntax::*;
use crate::sheets::to_text;
use std::io;

/// Start states for each body.
const STARTS: u64 = 32;

/// Bodies for which one process of the program is started.
const BATCH: u64 = 1_000;

/// Violations that are shown in full.
const SHOWN: u64 = 5;

/// Instructions with the code that was chosen for each.
pub struct Body {
    pub instructions: Vec<Instruction>,
    pub code: Vec<Code>,
}

/// Body number `index` of the run with this seed.
pub fn body(seed: u64, index: u64) -> Body {
    let mut random = Random::new(seed, index);
    let closed = random.once_in(2);
    let pool = [(); 3].map(|()| {
        let few = random.once_in(2);
        random.below(if few { 4 } else { 16 }) as u8
    });
    let mut writer = Writer { random, pool, closed };
    let mut body = Body { instructions: Vec::new(), code: Vec::new() };
    for index in pool {
        if closed || writer.random.once_in(2) {
            writer.add(&mut body, |writer| writer.set(index));
        }
    }
    for _ in 0..1 + writer.random.below(5) {
        writer.add(&mut body, Writer::instruction);
    }
    body
}

/// Writes instructions that the processor has. In closed bodies they use the
/// pool alone, whose registers were set before.
struct Writer {
    random: Random,
    pool: [u8; 3],
    closed: bool,
}

impl Writer {
    /// Adds one instruction; those that cannot be encoded are made again.
    fn add(&mut self, body: &mut Body, make: impl Fn(&mut Self) -> Instruction) {
        loop {
            let mut insn = make(self);
            let found = encodings(&insn);
            if !found.is_empty() {
                declare(&mut insn);
                body.instructions.push(insn);
                body.code.push(found[self.random.below(found.len())].clone());
                return;
            }
        }
    }

    fn size(&mut self) -> u8 {
        self.random.pick(&[8, 16, 32, 64])
    }

    fn register(&mut self, size: u8) -> Register {
        let index = match self.closed || !self.random.once_in(5) {
            true => self.random.pick(&self.pool),
            false => self.random.below(16) as u8,
        };
        let high = size == 8 && index < 4 && self.random.once_in(2);
        Register { class: GENERAL_CLASS, index, size, offset: if high { 8 } else { 0 } }
    }

    /// Values at which flags change, widened with zeros or with the sign.
    fn immediate(&mut self, size: u8) -> Operand {
        let most = u64::MAX >> (64 - u32::from(size));
        let value = match self.random.below(8) {
            0 => 0,
            1 => 1,
            2 => most,
            3 => most / 2,
            4 => most / 2 + 1,
            5 => self.random.below(8) as u64,
            6 => 1 << self.random.below(64),
            _ => self.random.draw(),
        };
        let unused = 64 - u32::from(size);
        let signed = ((value << unused) as i64 >> unused) as u64;
        Operand::Immediate(if self.random.once_in(2) { signed } else { value & most })
    }

    fn set(&mut self, index: u8) -> Instruction {
        let size = self.random.pick(&[32, 64]);
        let first = Operand::Register(Register { class: GENERAL_CLASS, index, size, offset: 0 });
        let second = Some(self.immediate(size));
        Instruction { mnemonic: MOV, first: Some(first), second, ..Default::default() }
    }

    fn instruction(&mut self) -> Instruction {
        let mnemonic = match self.random.below(10) {
            0 => self.random.pick(&CARRY),
            1 => MOV,
            2..=4 => self.random.pick(&UNARY),
            _ => self.random.pick(&BINARY),
        };
        let mut insn = Instruction { mnemonic, ..Default::default() };
        if !CARRY.contains(&mnemonic) {
            let size = self.size();
            let first = self.register(size);
            insn.first = Some(Operand::Register(first));
            if !UNARY.contains(&mnemonic) {
                insn.second = Some(self.second(first));
            }
        }
        insn
    }

    fn second(&mut self, first: Register) -> Operand {
        match self.random.below(16) {
            0 | 1 => Operand::Register(first),
            2..=8 => self.immediate(first.size),
            9 if !self.closed => Operand::Memory,
            _ => Operand::Register(self.register(first.size)),
        }
    }
}

/// Declares what a lister does: a 32-bit write as one of the whole register,
/// and the flags that the instruction may change.
fn declare(insn: &mut Instruction) {
    let flags = match insn.mnemonic {
        STC | CLC | CMC => CF,
        MOV | NOT => 0,
        INC | DEC => ALL & !CF,
        _ => ALL,
    };
    insn.flags = (flags != 0).then_some(flags);
    let writes = !matches!(insn.mnemonic, STC | CLC | CMC | CMP | TEST);
    if let (true, Some(Operand::Register(r))) = (writes, insn.first) {
        let size = if r.size == 32 { 64 } else { r.size };
        insn.written = Some(vec![Register { size, ..r }]);
    }
}

/// The body once for each jump, with the jump behind it, and a block around
/// each.
pub fn sheet(body: &Body) -> Sheet {
    let mut sheet = Sheet::default();
    let mut address = 0x1000;
    for jump in 0..JUMPS {
        let from = address;
        for insn in &body.instructions {
            sheet.instructions.push(Instruction { address, ..insn.clone() });
            address += 1;
        }
        let insn = Instruction {
            address,
            mnemonic: FIRST_JUMP + jump as u8,
            target: Some(0x1000),
            first: Some(Operand::Immediate(0x1000)),
            ..Default::default()
        };
        sheet.instructions.push(insn);
        address += 1;
        sheet.blocks.push(Block { from, to: address });
    }
    sheet
}

/// Follows which registers were set whole by a mov of an immediate, and which
/// flags follow from such registers.
#[derive(Default)]
struct Known {
    set: u16,
    flags: u8,
    /// A register was read that was not set, or memory.
    open: bool,
}

impl Known {
    fn read(&mut self, r: Register) {
        self.open |= self.set & 1 << r.index == 0;
    }

    fn step(&mut self, insn: &Instruction) {
        match insn.second {
            Some(Operand::Register(r)) => self.read(r),
            Some(Operand::Memory) => self.open = true,
            _ => {}
        }
        if let Some(Operand::Register(r)) = insn.first {
            let whole = insn.mnemonic == MOV && r.size >= 32;
            if whole && matches!(insn.second, Some(Operand::Immediate(_))) {
                self.set |= 1 << r.index;
            } else if !whole {
                self.read(r);
            }
        }
        // cmc turns CF round and leaves it as known as it was.
        if insn.mnemonic != CMC {
            self.flags |= insn.flags.unwrap_or(0);
        }
    }

    /// Whether a jump must be decided: nothing open, and all it reads known.
    fn decides(&self, mnemonic: u8) -> bool {
        let known = match flags_read(mnemonic) {
            Some(flags) => flags & !self.flags == 0,
            None => self.set & 2 != 0,
        };
        known && !self.open
    }
}

/// The flags that a jump reads; none for those that read register 1.
fn flags_read(mnemonic: u8) -> Option<u8> {
    Some(match mnemonic {
        JE | JNE => ZF,
        JL | JGE => SF | OF,
        JLE | JG => ZF | SF | OF,
        JB | JAE => CF,
        JBE | JA => CF | ZF,
        JS | JNS => SF,
        JP | JNP => PF,
        JO | JNO => OF,
        _ => return None,
    })
}

/// For each jump behind the body, whether it must be decided.
pub fn due(body: &Body) -> [bool; JUMPS] {
    let mut known = Known::default();
    body.instructions.iter().for_each(|insn| known.step(insn));
    std::array::from_fn(|jump| known.decides(FIRST_JUMP + jump as u8))
}

/// A state to start from: values near those in the body, near the ends of
/// each width, equal ones, and any.
fn start(random: &mut Random, body: &Body) -> Start {
    let mut values = vec![0, 1, u64::MAX, 0x80, 0x7F, 0x8000, 0x8000_0000, 1 << 63];
    for insn in &body.instructions {
        if let Some(Operand::Immediate(value)) = insn.second {
            values.extend([value, value.wrapping_neg(), value.wrapping_add(1)]);
        }
    }
    let same = random.draw();
    let value = |random: &mut Random| match random.below(4) {
        0 | 1 => random.pick(&values),
        2 => same,
        _ => random.draw() >> random.below(64),
    };
    let registers = std::array::from_fn(|_| value(random));
    let memory = value(random);
    // Bit 1 is always set; the interrupt flag stays as it is.
    let flags = match random.below(4) {
        0 => 0,
        1 => 0x8D5,
        _ => random.draw() & 0x8D5,
    };
    Start { registers, flags: flags | 0x202, memory }
}

#[derive(Default)]
struct Tally {
    bodies: u64,
    runs: u64,
    verdicts: [u64; 3],
    due: u64,
    violations: u64,
}

impl Tally {
    fn violation(&mut self, body: &Body, jump: usize, what: &str, start: Option<&Start>) {
        self.violations += 1;
        if self.violations > SHOWN {
            return;
        }
        println!("violation: {what}");
        let whole = sheet(body);
        let alone = alone(&whole, whole.blocks[jump]);
        to_text::text(&alone).lines().for_each(|line| println!("    {line}"));
        for code in &body.code {
            println!("    code {}", hex(&code.bytes));
        }
        if let Some(start) = start {
            println!("    flags {:#x} memory {:#x}", start.flags, start.memory);
            println!("    registers {:x?}", start.registers);
        }
    }

    fn print(&self) {
        let [undecided, always, never] = self.verdicts;
        println!("bodies {}, jumps behind them {}", self.bodies, self.bodies * JUMPS as u64);
        println!("always {always}, never {never}, undecided {undecided}");
        println!("had to be decided {}", self.due);
        println!("runs {}, jumps tried {}", self.runs, self.runs * JUMPS as u64);
        println!("violations {}", self.violations);
    }
}

/// Judges the program; true if no run went against a verdict, or if this
/// machine cannot run the code.
pub fn judge(program: &[String], runs: u64, seed: u64) -> io::Result<bool> {
    if let Some(message) = MISSING {
        println!("{message}");
        return Ok(true);
    }
    let mut runner = Runner::new()?;
    let mut tally = Tally::default();
    let bodies = runs.div_ceil(STARTS);
    let mut first = 0;
    while first < bodies {
        let end = bodies.min(first + BATCH);
        let list: Vec<Body> = (first..end).map(|index| body(seed, index)).collect();
        let mut input = Vec::new();
        list.iter().for_each(|body| ask_blocks(&mut input, &encode(&sheet(body)).bytes));
        let lines = run(program, input)?;
        if lines.first().is_some_and(|line| line == ABSENT) {
            println!("{ABSENT}");
            return Ok(true);
        }
        for (number, body) in list.iter().enumerate() {
            let line = lines.get(number).map_or("no line", String::as_str);
            let mut random = Random::new(!seed, first + number as u64);
            judge_body(&mut runner, &mut random, body, line, &mut tally)?;
        }
        first = end;
    }
    tally.print();
    Ok(tally.violations == 0)
}

/// The program's answers on the body's blocks, if the line has them.
fn verdicts(line: &str) -> Option<[Option<bool>; JUMPS]> {
    let Line::Answers { blocks, .. } = Line::parse(line) else {
        return None;
    };
    let answer = |answer: &Answer| match answer {
        Answer::Undecided => Some(None),
        Answer::Decided(Decided { holds, reason: FLAGS }) => Some(Some(*holds)),
        _ => None,
    };
    let answers: Vec<Option<bool>> = blocks.iter().map(answer).collect::<Option<_>>()?;
    answers.try_into().ok()
}

fn judge_body(
    runner: &mut Runner,
    random: &mut Random,
    body: &Body,
    line: &str,
    tally: &mut Tally,
) -> io::Result<()> {
    tally.bodies += 1;
    let Some(verdicts) = verdicts(line) else {
        tally.violation(body, 0, &format!("the program says '{line}'"), None);
        return Ok(());
    };
    let due = due(body);
    for jump in 0..JUMPS {
        let kind = verdicts[jump].map_or(0, |always| if always { 1 } else { 2 });
        tally.verdicts[kind] += 1;
        tally.due += u64::from(due[jump]);
        if due[jump] && verdicts[jump].is_none() {
            tally.violation(body, jump, "undecided, and all that it reads is known", None);
        }
    }
    runner.load(body.code.as_slice())?;
    for _ in 0..STARTS {
        let start = start(random, body);
        let taken = runner.run(&start);
        tally.runs += 1;
        for jump in 0..JUMPS {
            if verdicts[jump].is_some_and(|always| always != taken[jump]) {
                let what =
                    if taken[jump] { "never, and it jumps" } else { "always, and it does not" };
                tally.violation(body, jump, what, Some(&start));
            }
        }
    }
    Ok(())
}
