//! How much stack a function can take, computed from the machine code: its frame, and that of each function down every chain of calls.

use crate::programs::succeeded;
use std::collections::{BTreeMap, BTreeSet};
use std::path::Path;
use std::process::Command;

/// What a function takes of the stack itself, and the addresses that it calls or jumps to.
#[derive(Default)]
struct Frame {
    name: String,
    bytes: usize,
    next: BTreeSet<usize>,
}

/// The functions of an x86-64 library, by their addresses.
pub struct Frames(BTreeMap<usize, Frame>);

impl Frames {
    /// Reads what objdump prints of a library. Fails if a frame can grow while it is used, or if it is unknown what is called.
    pub fn of(library: &Path) -> Self {
        let mut objdump = Command::new("objdump");
        objdump
            .args(["--disassemble", "--no-show-raw-insn"])
            .arg(library);
        let mut frames: BTreeMap<usize, Frame> = BTreeMap::new();
        for line in succeeded(&objdump.output().expect("objdump starts")).lines() {
            if let Some((address, name)) = function_head(line) {
                let name = name.to_string();
                let frame = Frame {
                    name,
                    ..Frame::default()
                };
                frames.insert(address, frame);
            } else if let Some(instruction) = line.split('\t').nth(1) {
                let mut last = frames
                    .last_entry()
                    .expect("a function before its instructions");
                let address = *last.key();
                last.get_mut().count(address, instruction);
            }
        }
        Self(frames)
    }

    /// The stack that the function of this name takes at most, from its return address on. Fails if functions can call themselves.
    pub fn stack_of(&self, name: &str) -> usize {
        let found = self.0.iter().find(|(_, frame)| frame.name == name);
        let (address, _) = found.unwrap_or_else(|| panic!("{name} is no function"));
        self.most(*address, 0)
    }

    fn most(&self, address: usize, depth: usize) -> usize {
        assert!(depth < self.0.len(), "functions that call themselves");
        let frame = &self.0[&address];
        // Any other jump is to a place inside the function.
        let functions = frame.next.iter().filter(|next| self.0.contains_key(next));
        let most = functions.map(|next| self.most(*next, depth + 1)).max();
        size_of::<usize>() + frame.bytes + most.unwrap_or(0)
    }
}

impl Frame {
    /// Counts an instruction of the function at this address. What lowers the stack twice is counted twice, which is only too much.
    fn count(&mut self, address: usize, instruction: &str) {
        let mut parts = instruction.split_whitespace();
        let (operation, operand) = (parts.next().unwrap_or(""), parts.next().unwrap_or(""));
        let constant = operand
            .strip_prefix('$')
            .and_then(|rest| hexadecimal(rest.strip_suffix(",%rsp")?))
            .map(|bits| bits as isize);
        match (operation, constant) {
            ("push", _) => self.bytes += size_of::<usize>(),
            ("sub", Some(bytes)) => self.bytes += usize::try_from(bytes).unwrap_or(0),
            ("add", Some(bytes)) => self.bytes += usize::try_from(-bytes).unwrap_or(0),
            ("call", _) => {
                let function = hexadecimal(operand);
                self.next
                    .insert(function.unwrap_or_else(|| panic!("{}: {instruction}", self.name)));
            }
            (jump, _) if jump.starts_with('j') => {
                let place = hexadecimal(operand).filter(|place| *place != address);
                self.next.extend(place);
            }
            _ => assert!(!operand.ends_with(",%rsp"), "{}: {instruction}", self.name),
        }
    }
}

/// The address and the name in a line like `00000000000078d0 <hk_convert>:`.
fn function_head(line: &str) -> Option<(usize, &str)> {
    let (address, name) = line.strip_suffix(">:")?.split_once(" <")?;
    Some((hexadecimal(address)?, name))
}

fn hexadecimal(digits: &str) -> Option<usize> {
    usize::from_str_radix(digits.trim_start_matches("0x"), 16).ok()
}

#[cfg(test)]
mod tests {
    use super::{Frame, Frames};

    fn frame(address: usize, instructions: &[&str]) -> (usize, Frame) {
        let mut frame = Frame {
            name: format!("function_{address:x}"),
            ..Frame::default()
        };
        for instruction in instructions {
            frame.count(address, instruction);
        }
        (address, frame)
    }

    #[test]
    fn a_chain_of_calls_adds_up() {
        let frames = Frames(
            [
                frame(
                    0x10,
                    &[
                        "push   %rbp",
                        "add    $0xffffffffffffff80,%rsp",
                        "call   40 <function_40>",
                        "call   80 <function_80>",
                        "sub    $0xffffffffffffff80,%rsp",
                        "add    $0x8,%rsp",
                        "ret",
                    ],
                ),
                frame(0x40, &["sub    $0x100,%rsp", "jne    48 <function_40+0x8>"]),
                frame(
                    0x80,
                    &["push   %rbx", "jmp    40 <function_40>", "jmp    80"],
                ),
            ]
            .into(),
        );
        assert_eq!(frames.stack_of("function_40"), 8 + 0x100);
        assert_eq!(frames.stack_of("function_80"), 8 + 8 + 8 + 0x100);
        assert_eq!(
            frames.stack_of("function_10"),
            8 + 8 + 0x80 + 8 + 8 + 8 + 0x100
        );
    }

    #[test]
    #[should_panic(expected = "functions that call themselves")]
    fn recursion_has_no_bound() {
        let frames = Frames([frame(0x10, &["call   10 <function_10>"])].into());
        frames.stack_of("function_10");
    }

    #[test]
    #[should_panic(expected = "call   *%rax")]
    fn a_call_by_pointer_has_no_bound() {
        frame(0x10, &["call   *%rax"]);
    }

    #[test]
    #[should_panic(expected = "sub    %rax,%rsp")]
    fn a_frame_that_grows_has_no_bound() {
        frame(0x10, &["sub    %rax,%rsp"]);
    }
}
