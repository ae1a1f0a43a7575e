//! From a sheet to the given source's types, and from its answers to a line.

use crate::ast::{AstNode, BinaryOp};
use crate::cfg::{Block, ProcedureCfg};
use crate::cpu_context::{Access, DecodedInsn, Flow, Operand, RegisterUse};
use crate::guard;
use crate::lift::Statement;
#[cfg(product)]
use crate::lift::{Node, Stages};
use crate::opaque;
use crate::pipeline::Disasm;
use crate::register::RegisterId;
#[cfg(product)]
use crate::structure::Terminator;
use oracle::answers::{self, Answer, Decided, FLAGS};
use oracle::judges::node_limits;
use oracle::judges::reader;
use oracle::judges::substitution::{substitute, Rule};
use oracle::sentences;
use oracle::sheets::syntax as sheet;
use std::hint::black_box;
use std::time::{Duration, Instant};

/// Records of a substituted expression beyond which a node is not judged:
/// the given source has no limit, and expressions may double at each step.
const MOST_RECORDS: usize = 2_000;

/// A node is timed again until this has passed.
const LONG_ENOUGH: Duration = Duration::from_millis(5);

/// Which nodes are judged: those of the sheet, or ones for which the given
/// source's own steps give what docs/DIFFERENCES.md says, with the refusals
/// 10 and 11.
#[derive(Clone, Copy, PartialEq, Eq)]
pub enum Nodes {
    AsTheyAre,
    WithDifferences,
}

/// The answer to one sheet.
pub fn line(bytes: &[u8], nodes: Nodes) -> String {
    match judged(bytes, nodes) {
        Ok(Judged { blocks, nodes, .. }) => {
            format!("{} {}", answers::line("blocks", &blocks), answers::line("nodes", &nodes))
        }
        Err(refusal) => refusal.to_string(),
    }
}

/// What is said of a sheet: the answers for its blocks and nodes, and for each
/// block the sentence, empty where the source gives none.
#[derive(Default)]
pub struct Judged {
    pub blocks: Vec<Answer>,
    #[cfg_attr(not(product), allow(dead_code))]
    pub sentences: Vec<String>,
    pub nodes: Vec<Answer>,
}

pub fn judged(bytes: &[u8], nodes: Nodes) -> Result<Judged, reader::Refusal> {
    let sheet = reader::read(bytes)?.sheet;
    let (blocks, sentences) = judged_blocks(&sheet).into_iter().unzip();
    let nodes = sheet.nodes.iter().map(|node| node_answer(node, nodes)).collect();
    Ok(Judged { blocks, sentences, nodes })
}

/// The sentences for the blocks of a sheet.
pub fn sentence_line(bytes: &[u8]) -> String {
    match reader::read(bytes) {
        Ok(accepted) => {
            let judged = judged_blocks(&accepted.sheet);
            sentences::line(judged.iter().map(|(_, sentence)| sentence.as_str()))
        }
        Err(refusal) => refusal.to_string(),
    }
}

fn judged_blocks(sheet: &sheet::Sheet) -> Vec<(Answer, String)> {
    let disasm = Disasm { instructions: sheet.instructions.iter().map(instruction).collect() };
    sheet.blocks.iter().map(|block| judged_block(&disasm, *block)).collect()
}

/// The source's own entry on a whole sheet: how many branches it finds, or
/// nothing where it was not run to its end.
#[cfg(product)]
pub fn branches(sheet: &sheet::Sheet) -> Option<usize> {
    let disasm = Disasm { instructions: sheet.instructions.iter().map(instruction).collect() };
    let blocks = sheet.blocks.iter().map(|block| Block { from: block.from, to: block.to });
    let graph = ProcedureCfg { blocks: blocks.collect() };
    let mut builder = Builder { effects: None };
    let stages = Stages { medium: sheet.nodes.iter().map(|node| builder.node(node)).collect() };
    guard::limited(|| opaque::opaque_predicates(&disasm, &graph, Some(&stages)).len())
}

/// The answers for the nodes of a sheet alone.
pub fn node_line(bytes: &[u8], nodes: Nodes) -> String {
    match reader::read(bytes) {
        Ok(accepted) => {
            let answers: Vec<Answer> =
                accepted.sheet.nodes.iter().map(|node| node_answer(node, nodes)).collect();
            answers::line("nodes", &answers)
        }
        Err(refusal) => refusal.to_string(),
    }
}

fn answer(holds: bool, reason: u8) -> Answer {
    Answer::Decided(Decided { holds, reason })
}

/// The source gives nothing both for an undecided branch and for none; which
/// it is shows in the block's last instruction.
fn judged_block(disasm: &Disasm, block: sheet::Block) -> (Answer, String) {
    let sheet::Block { from, to } = block;
    let graph = ProcedureCfg { blocks: vec![Block { from, to }] };
    if let Some(found) = opaque::in_flags(disasm, &graph).pop() {
        return (answer(found.always, FLAGS), found.why);
    }
    let inside = |ins: &&DecodedInsn| from <= ins.address && ins.address < to;
    let last = disasm.instructions.iter().rev().find(inside);
    let branch = last.is_some_and(|ins| matches!(ins.flow, Flow::ConditionalBranch(_)));
    let answer = if branch { Answer::Undecided } else { Answer::NoBranch };
    (answer, String::new())
}

fn instruction(insn: &sheet::Instruction) -> DecodedInsn {
    let write = |r: &sheet::Register| RegisterUse { register: register(*r), access: Access::Write };
    DecodedInsn {
        address: insn.address,
        length: 1,
        mnemonic: insn.mnemonic.into(),
        flow: flow(insn),
        operands: [insn.first, insn.second].into_iter().flatten().map(operand).collect(),
        register_uses: insn.written.iter().flatten().map(write).collect(),
        rip_relative_address: None,
        absolute_address: None,
        switch_indices: false,
        opcode: 0,
        flags_read: 0,
        flags_written: insn.flags.unwrap_or(0).into(),
        rep: false,
        delay_slot: false,
    }
}

/// The sheet has one bit for the four call-like flows; each gets its turn.
fn flow(insn: &sheet::Instruction) -> Flow {
    let call_like = [Flow::Call(0), Flow::IndirectCall, Flow::Syscall, Flow::Interrupt];
    match insn.target {
        Some(target) => Flow::ConditionalBranch(target),
        None if insn.call_like => call_like[(insn.address % 4) as usize],
        None => Flow::Next,
    }
}

fn register(r: sheet::Register) -> RegisterId {
    RegisterId {
        class: r.class.into(),
        index: r.index.into(),
        bit_size: r.size.into(),
        bit_offset: r.offset.into(),
    }
}

fn operand(operand: sheet::Operand) -> Operand {
    let none = RegisterId { class: 0, index: 0, bit_size: 0, bit_offset: 0 };
    match operand {
        sheet::Operand::Register(r) => Operand::Register(register(r)),
        sheet::Operand::Immediate(value) => Operand::Imm(value as i64 as i128),
        _ => Operand::Mem { base: none, index: none, scale: 1, disp: 0, size: 0 },
    }
}

fn node_answer(node: &sheet::Node, nodes: Nodes) -> Answer {
    let differ = nodes == Nodes::WithDifferences;
    if let (true, Some(number)) = (differ, node_limits::refusal(node)) {
        return Answer::Refused(number);
    }
    let Some((statements, condition)) = trees(node, nodes) else {
        return Answer::NotRun;
    };
    match guard::limited(|| opaque::node_verdict(&statements, &condition)) {
        None => Answer::NotRun,
        Some(None) => Answer::Undecided,
        Some(Some((holds, why))) => answer(holds, reason(&why)),
    }
}

/// The node in the source's types; nothing if its expressions grow too long.
fn trees(node: &sheet::Node, nodes: Nodes) -> Option<(Vec<Statement>, AstNode)> {
    let differ = nodes == Nodes::WithDifferences;
    let rule = if differ { Rule::Ours } else { Rule::Given };
    let found = substitute(node, rule, MOST_RECORDS)?;
    let mut builder = Builder { effects: differ.then_some(0) };
    let mut statements = Vec::new();
    for (number, statement) in node.statements.iter().enumerate() {
        let held = !found.not_held.contains(&number);
        statements.push(Statement { node: builder.statement(statement, held) });
    }
    Some((statements, builder.expression(&node.condition)))
}

/// Nanoseconds that judging each node of a sheet took, the least of several
/// times, or `-`.
pub fn time_line(bytes: &[u8]) -> String {
    let sheet = match reader::read(bytes) {
        Ok(accepted) => accepted.sheet,
        Err(refusal) => return refusal.to_string(),
    };
    let time = |node: &sheet::Node| {
        let (statements, condition) = trees(node, Nodes::AsTheyAre)?;
        let begin = Instant::now();
        let once = |_| {
            let start = Instant::now();
            let found = guard::limited(|| opaque::node_verdict(&statements, &condition));
            black_box(found).map(|_| start.elapsed().as_nanos())
        };
        let first = once(0)?;
        let others = (1..20).take_while(|_| begin.elapsed() < LONG_ENOUGH).filter_map(once);
        Some(others.fold(first, u128::min))
    };
    let word = |node| time(node).map_or("-".to_string(), |time| time.to_string());
    sheet.nodes.iter().fold("nodes".to_string(), |line, node| format!("{line} {}", word(node)))
}

/// The number of a sentence: its words tell the step it comes from.
fn reason(why: &str) -> u8 {
    let has = |words: &str| why.contains(words);
    match () {
        _ if has(", and ") => 7,
        _ if has("both sides of") => 2,
        _ if has("the carry is clear") => 3,
        _ if has("is unsigned") => 4,
        _ if has(guard::PARITY) => 6,
        _ if has("is always") => 5,
        _ => panic!("no step of the given source is known to say '{why}'"),
    }
}

/// C names by type number. The source looks for `unsigned`, `*` and `bool`.
const TYPES: [&str; 10] = [
    "signed char",
    "short",
    "int",
    "long",
    "unsigned char",
    "unsigned short",
    "unsigned int",
    "unsigned long",
    "void *",
    "bool",
];

const OPERATORS: [BinaryOp; 18] = [
    BinaryOp::Add,
    BinaryOp::Sub,
    BinaryOp::Mul,
    BinaryOp::Div,
    BinaryOp::Mod,
    BinaryOp::And,
    BinaryOp::Or,
    BinaryOp::Xor,
    BinaryOp::Shl,
    BinaryOp::Shr,
    BinaryOp::Equal,
    BinaryOp::NotEqual,
    BinaryOp::Less,
    BinaryOp::LessEqual,
    BinaryOp::Greater,
    BinaryOp::GreaterEqual,
    BinaryOp::LogicalAnd,
    BinaryOp::LogicalOr,
];

/// Builds trees. Where effects are counted each has a name of its own, so
/// that no two of them are equal as trees.
struct Builder {
    effects: Option<u32>,
}

impl Builder {
    #[cfg(product)]
    fn node(&mut self, node: &sheet::Node) -> Node {
        let statements = node.statements.iter();
        Node {
            statements: statements.map(|s| Statement { node: self.statement(s, true) }).collect(),
            terminator: Terminator::Branch {
                cond: self.expression(&node.condition),
                addresses: node.addresses.clone(),
            },
        }
    }

    /// An assignment that is not to be held gets a value that the source
    /// does not hold.
    fn statement(&mut self, statement: &sheet::Statement, held: bool) -> AstNode {
        let sheet::Statement::Assign { variable, value } = statement else {
            return AstNode::Call { callee: Box::new(AstNode::var("other")), args: Vec::new() };
        };
        let rhs = if held { self.expression(value) } else { self.effect(0) };
        AstNode::Assign { lhs: Box::new(self.variable(*variable)), rhs: Box::new(rhs) }
    }

    fn variable(&self, number: u8) -> AstNode {
        AstNode::var(format!("v{number}"))
    }

    fn effect(&mut self, code: u8) -> AstNode {
        let mut name = format!("effect {code}");
        if let Some(count) = &mut self.effects {
            *count += 1;
            name = format!("{name} {count}");
        }
        AstNode::Intrinsic { name, args: Vec::new() }
    }

    fn expression(&mut self, records: &[sheet::Record]) -> AstNode {
        let mut stack: Vec<AstNode> = Vec::new();
        for record in records {
            let children = stack.split_off(stack.len() - record.children());
            stack.push(self.record(*record, children));
        }
        stack.pop().expect("an accepted expression is one tree")
    }

    fn record(&mut self, record: sheet::Record, children: Vec<AstNode>) -> AstNode {
        let mut children = children.into_iter().map(Box::new);
        let mut child = || children.next().expect("an accepted record has its children");
        match record {
            sheet::Record::Variable(number) => self.variable(number),
            sheet::Record::Constant { width, value } => AstNode::constant(value, width.into()),
            sheet::Record::True => AstNode::ConditionTrue,
            sheet::Record::False => AstNode::ConditionFalse,
            sheet::Record::Effect(code) => self.effect(code),
            sheet::Record::Load(code) => {
                let ty = format!("{} *", TYPES[code as usize]);
                AstNode::Deref { target: Box::new(AstNode::Cast { ty, target: child() }) }
            }
            sheet::Record::Cast(code) => {
                AstNode::Cast { ty: TYPES[code as usize].to_string(), target: child() }
            }
            sheet::Record::Binary(code) => {
                AstNode::Binary { lhs: child(), op: OPERATORS[code as usize], rhs: child() }
            }
            sheet::Record::Ternary => {
                AstNode::Ternary { cond: child(), then: child(), otherwise: child() }
            }
            sheet::Record::Unknown(_) => unreachable!("an accepted record has a known kind"),
        }
    }
}
