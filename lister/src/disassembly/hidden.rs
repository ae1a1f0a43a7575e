//! Code that is run and not shown: what starts between two lines of the text, or
//! where it shows no instructions. It is decoded from each place that control may
//! come to, as far as a line of the text; there a block starts. Both readings
//! stand, and the branches of this one are not judged.

use crate::disassembly::bits::Bits;
use crate::disassembly::control_flow::{addresses, is_short_branch, Outside, LONGEST};
use crate::disassembly::elf::Span;
use crate::disassembly::instruction::{listed, Flow};
use crate::disassembly::operand::parts;
use crate::disassembly::returns;
use crate::disassembly::text::{Disassembly, Line};
use std::collections::HashSet;

/// An instruction with its own address. Addresses in its text are those of a copy,
/// and too high by `moved`.
#[derive(Clone, Debug)]
pub struct Decoded {
    pub address: u64,
    pub bytes: String,
    pub text: String,
    pub moved: u64,
}

impl Decoded {
    fn line(&self) -> Line<'_> {
        let size = self.bytes.split_whitespace().count() as u64;
        let Decoded { address, bytes, text, .. } = self;
        Line { address: *address, text, bytes, size, after_gap: false }
    }

    /// Its bytes; what cannot be decoded may be of any length.
    fn span(&self) -> Span {
        let size = if self.text.contains("(bad)") { LONGEST } else { self.line().size };
        Span { start: self.address, end: self.address.saturating_add(size) }
    }
}

/// The instructions from a place on.
#[derive(Clone, Debug, Default)]
pub struct Run {
    pub lines: Vec<Decoded>,
    /// Where it goes on, if there is more of it.
    pub rest: Option<u64>,
}

/// Decodes from each of some addresses; nothing where there are no bytes.
pub type Decoder<'a> = dyn Fn(&[u64]) -> Result<Vec<Run>, String> + 'a;

/// A place to decode from, and whether bytes that cannot be decoded lie on the way
/// to it: they are looked past once, or data would lead to everywhere.
type Place = (u64, bool);

struct Follower<'a> {
    text: &'a Disassembly<'a>,
    outside: &'a mut Outside,
    seen: HashSet<Place>,
    waiting: Vec<Place>,
    past: bool,
}

/// Adds to `outside` what runs from the places that are not lines of the text.
pub fn follow(
    text: &Disassembly,
    outside: &mut Outside,
    starts: Vec<u64>,
    decode: &Decoder,
) -> Result<(), String> {
    let (seen, waiting) = (HashSet::new(), Vec::new());
    let mut follower = Follower { text, outside, seen, waiting, past: false };
    starts.into_iter().for_each(|start| follower.reached(start));
    while !follower.waiting.is_empty() {
        let mut places = std::mem::take(&mut follower.waiting);
        places.sort_unstable();
        places.dedup();
        let addresses: Vec<u64> = places.iter().map(|(address, _)| *address).collect();
        let runs = decode(&addresses)?;
        for ((_, past), run) in places.into_iter().zip(&runs) {
            follower.past = past;
            follower.take(run);
        }
    }
    Ok(())
}

impl Follower<'_> {
    /// Control may come to this address.
    fn reached(&mut self, address: u64) {
        if self.text.line_at(address).is_ok() {
            self.outside.possible.push(address);
        } else if !self.seen.contains(&(address, self.past)) {
            self.waiting.push((address, self.past));
        }
    }

    fn take(&mut self, run: &Run) {
        for (number, line) in run.lines.iter().enumerate() {
            if self.text.line_at(line.address).is_ok() {
                self.outside.possible.push(line.address);
                return;
            }
            let new = self.seen.insert((line.address, self.past));
            self.outside.hidden.push(line.span());
            if !new || !self.line(&run.lines[..=number]) {
                return;
            }
        }
        if let Some(rest) = run.rest {
            self.reached(rest);
        }
    }

    /// Takes the last of these lines; whether control goes on from it.
    fn line(&mut self, lines: &[Decoded]) -> bool {
        let last = &lines[lines.len() - 1];
        let (line, parts) = (last.line(), parts(&last.text));
        let flow = listed(&line).flow;
        let bits = self.text.bits;
        let named = addresses(&parts, last.moved, bits, self.outside);
        named.into_iter().for_each(|address| self.reached(address));
        if is_short_branch(&line, &parts) {
            self.outside.opens.push(last.address);
            line.end().into_iter().for_each(|end| self.reached(end.wrapping_add(2)));
        }
        match flow {
            Flow::Branch(target) | Flow::Jump(target) => {
                let target = bits.address(target.wrapping_sub(last.moved));
                self.outside.joins.push((last.address, target));
            }
            Flow::IndirectJump => self.outside.opens.push(last.address),
            Flow::Ends if returns_elsewhere(bits, lines) => self.outside.opens.push(last.address),
            // The processor may run what objdump cannot decode, as an instruction of any
            // length.
            _ if last.text.contains("(bad)") && self.past => return false,
            _ if last.text.contains("(bad)") => {
                self.past = true;
                (1..=LONGEST).for_each(|size| self.reached(last.address.wrapping_add(size)));
                return false;
            }
            _ => {}
        }
        matches!(flow, Flow::Next | Flow::Branch(_))
    }
}

fn returns_elsewhere(bits: Bits, lines: &[Decoded]) -> bool {
    let lines: Vec<Line> = lines.iter().map(Decoded::line).collect();
    let last = parts(lines[lines.len() - 1].text).mnemonic;
    last == "ret" && returns::is_jump(bits, &lines, |_| true, |_| false)
}
