#!/usr/bin/env python3
"""Makes one crate of plain Rust from the crates of a tree, to measure its speed: plain_rust.py TREE OUT"""

import re
import sys
from pathlib import Path

CRATES = [
    "chess_core", "chess_attacks", "chess_rules", "chess_flights", "chess_mates", "chess_threats",
    "pop_text", "pop_stipulation", "chess_reach", "pop_input", "pop_events", "pop_battle", "pop_walk", "pop_solve",
    "pop_print", "run_settings", "pop_run",
]
STAND_INS = ["arrayvec", "memchr", "itoa"]
# Files that only tests and the proved program use.
LEFT_OUT = ("trial_source.rt", "trial_sink.rt", "read_source.rt", "write_sink.rt")
# Ghost items and clauses: each begins a line.
GHOST = re.compile(
    r"(?m)^[ \t]*(?:(?P<ghost>ghost )|(?P<clause>(?:requires|ensures|decreases)\b)"
    r"|(?P<model>impl(?:<[^{]*?>)? Model for )|(?P<tactic>#!?\[tactic\())"
)
CLONE = re.compile(r"(impl(?:<[^{]*?>)? Clone for [^{]*)\{")
DERIVED = re.compile(
    r"#\[derive_where\(([^);]*)(?:; ([^)]*))?\)\]\n((?:\s*#\[.*\]\n|\s*//.*\n)*)\s*pub(?:\(crate\))? (?:struct|enum) (\w+)<([^>]*)>"
)
# The macro belongs to the root of the one crate.
MACRO = re.compile(r"#\[macro_export\]\s*macro_rules! (\w+)")
ARRAYVEC = '''//! Fixed room.
use std::mem::MaybeUninit;
pub struct CapacityError;
pub struct ArrayVec<T, const N: usize> { n: usize, cells: [MaybeUninit<T>; N] }
impl<T: Copy, const N: usize> ArrayVec<T, N> {
    #[inline(always)] pub fn new() -> Self { ArrayVec { n: 0, cells: [const { MaybeUninit::uninit() }; N] } }
    #[inline(always)] pub fn len(&self) -> usize { self.n }
    #[inline(always)] pub fn is_empty(&self) -> bool { self.n == 0 }
    #[inline(always)] pub fn is_full(&self) -> bool { self.n == N }
    #[inline(always)] pub fn capacity(&self) -> usize { N }
    #[inline(always)] pub fn remaining_capacity(&self) -> usize { N - self.n }
    #[inline(always)] pub fn push(&mut self, x: T) { debug_assert!(self.n < N); unsafe { self.cells.get_unchecked_mut(self.n).write(x); } self.n += 1; }
    #[inline(always)] pub fn pop(&mut self) -> Option<T> { if self.n == 0 { return None; } self.n -= 1; Some(unsafe { self.cells.get_unchecked(self.n).assume_init_read() }) }
    #[inline(always)] pub fn as_slice(&self) -> &[T] { unsafe { std::slice::from_raw_parts(self.cells.as_ptr() as *const T, self.n) } }
    #[inline(always)] pub fn as_mut_slice(&mut self) -> &mut [T] { unsafe { std::slice::from_raw_parts_mut(self.cells.as_mut_ptr() as *mut T, self.n) } }
    #[inline(always)] pub fn clear(&mut self) { self.n = 0; }
    #[inline(always)] pub fn truncate(&mut self, n: usize) { if n < self.n { self.n = n; } }
    pub fn try_push(&mut self, x: T) -> Result<(), CapacityError> { if self.n == N { Err(CapacityError) } else { self.push(x); Ok(()) } }
    pub fn try_extend_from_slice(&mut self, s: &[T]) -> Result<(), CapacityError> { if s.len() > N - self.n { return Err(CapacityError); } for &x in s { self.push(x); } Ok(()) }
}
impl<T: Copy, const N: usize> std::ops::Deref for ArrayVec<T, N> { type Target = [T]; #[inline(always)] fn deref(&self) -> &[T] { self.as_slice() } }
impl<T: Copy, const N: usize> std::ops::DerefMut for ArrayVec<T, N> { #[inline(always)] fn deref_mut(&mut self) -> &mut [T] { self.as_mut_slice() } }
impl<T: Copy, const N: usize> Clone for ArrayVec<T, N> { fn clone(&self) -> Self { let mut v = Self::new(); for &x in self.as_slice() { v.push(x); } v } }
impl<'a, T: Copy, const N: usize> IntoIterator for &'a ArrayVec<T, N> { type Item = &'a T; type IntoIter = std::slice::Iter<'a, T>; fn into_iter(self) -> Self::IntoIter { self.as_slice().iter() } }
'''
MEMCHR = "pub fn memchr(b: u8, s: &[u8]) -> Option<usize> { s.iter().position(|&x| x == b) }\n"
ITOA = """pub struct Buffer(String);
impl Buffer { pub fn new() -> Self { Buffer(String::new()) } pub fn format<T: std::fmt::Display>(&mut self, x: T) -> &str { self.0 = x.to_string(); &self.0 } }
"""
MAIN = '''
use std::io::{Read, Write};
use pop_text::{Device, Sink, SinkFault, Source};
struct In(Box<dyn Read>);
impl Source for In { fn read(&mut self, b: &mut [u8]) -> Result<usize, Device> { self.0.read(b).map_err(|_| Device) } }
struct Out<'a>(std::io::StdoutLock<'a>);
impl Sink for Out<'_> { fn write(&mut self, b: &[u8]) -> Result<usize, SinkFault> { self.0.write(b).map_err(|_| SinkFault) } }
fn main() {
    let (mut check, mut no_board, mut file) = (false, false, None);
    for a in std::env::args().skip(1) { match a.as_str() { "--check" => check = true, "--no-board" => no_board = true, _ => file = Some(a) } }
    let input: Box<dyn Read> = match file { Some(f) => Box::new(std::fs::File::open(f).unwrap()), None => Box::new(std::io::stdin()) };
    let mut out = Out(std::io::stdout().lock());
    let status = pop_run::run(&pop_run::Settings { file: None, check, no_board }, &mut In(input), &mut out);
    out.0.flush().unwrap();
    use pop_run::Status;
    std::process::exit(match status { Status::Sound => 0, Status::Faulty => 1, _ => 3 });
}
'''
CARGO = """[package]
name = "plain"
version = "0.1.0"
edition = "2021"
[features]
[profile.release]
opt-level = 3
codegen-units = 1
panic = "abort"
lto = "fat"
debug = 1
[workspace]
"""
CARGO_CONFIG = '[build]\nrustflags = ["-Ctarget-cpu=x86-64-v2"]\n'


def after_closing(text: str, at: int, opening: str = "{", closing: str = "}") -> int:
    """Returns the place after the bracket that closes the one at this place."""
    depth = 0
    while True:
        depth += (text[at] == opening) - (text[at] == closing)
        at += 1
        if depth == 0 and text[at - 1] == closing:
            return at


def after_ghost(text: str, at: int) -> int:
    """Returns the place after a ghost item: after its semicolon outside of brackets."""
    depth = 0
    while text[at] != ";" or depth:
        depth += (text[at] in "{(") - (text[at] in "})")
        at += 1
    return at + 1


def without_ghosts(text: str) -> str:
    """Removes ghost items, clauses, models and tactics."""
    kept, at = [], 0
    while (found := GHOST.search(text, at)) is not None:
        kept.append(text[at : found.start()])
        if found["ghost"]:
            at = after_ghost(text, found.end())
        elif found["tactic"]:
            at = after_closing(text, text.index("[", found.start()), "[", "]")
        else:
            at = after_closing(text, text.index("{", found.end()))
    return "".join([*kept, text[at:]])


def with_plain_clones(text: str) -> str:
    """Replaces the body of each written clone by a copy."""
    at = 0
    while (found := CLONE.search(text, at)) is not None:
        end = after_closing(text, found.end() - 1)
        body = found[1] + "{\n    #[inline(always)]\n    fn clone(&self) -> Self { *self }\n}"
        text = text[: found.start()] + body + text[end:]
        at = found.start() + len(body)
    return text


def derived(text: str) -> str:
    """Writes what `derive_where` derives for each type."""
    written = []
    for traits, of, _, name, parameters in DERIVED.findall(text):
        names = ", ".join(it.split(":")[0].strip() for it in parameters.split(","))
        bounds = f" where {of}: Copy" if of else ""
        for it in (trait.strip() for trait in traits.split(",")):
            if it == "Copy":
                written.append(f"impl<{parameters}> Copy for {name}<{names}>{bounds} {{}}\n")
            elif it == "Clone":
                clone = "#[inline(always)] fn clone(&self) -> Self { *self }"
                written.append(f"impl<{parameters}> Clone for {name}<{names}>{bounds} {{ {clone} }}\n")
    return "".join(written)


def without_drop(derive: "re.Match[str]") -> str:
    """Returns a list of derived traits without Drop."""
    traits = [it.strip() for it in derive[1].split(",") if it.strip() and it.strip() != "Drop"]
    return f"#[derive({', '.join(traits)})]" if traits else ""


def plain(text: str, crate: str, crates: list[str]) -> str:
    """Turns a file of a crate into plain Rust within one crate."""
    text = re.sub(r"\bfinal fn\b", "fn", without_ghosts(text))
    text = text.replace("use std::alloc::AllocError;\n", "").replace("use std::marker::Model;\n", "")
    text = text.replace("use std::marker::{Model, PhantomData};", "use std::marker::PhantomData;")
    text = with_plain_clones(text)
    more = derived(text)
    text = re.sub(r"#\[derive_where\([^)]*\)\]\n", "", text)
    text = re.sub(r"#\[derive\(([^)]*)\)\]", without_drop, text)
    text = re.sub(r"(?<![:\w])crate::", f"crate::{crate}::", text)
    text = re.sub(r"(?<![:\w])(" + "|".join([*crates, *STAND_INS]) + r")::", r"crate::\1::", text)
    text = text.replace("crate::crate::", "crate::")
    text = re.sub(r" \+ Drop\b", "", re.sub(r": Drop\b", "", text))
    text = text.replace("fn fmt<W: fmt::Write>(", "fn fmt(").replace("fmt::Formatter<W>", "fmt::Formatter<'_>")
    if ".write_char(" in text:
        more += "use std::fmt::Write as _;\n"
    text = re.sub(r"#!?\[rattlefmt::skip\]\n", "", text) + more
    return re.sub(r"\n[ \t]*\n([ \t]*\n)+", "\n\n", text)


def write_crate(base: Path, crate: str, crates: list[str], folder: Path) -> None:
    """Writes the files of a crate as a module, which names the macros that the crate exports."""
    macros = "".join(f"pub use crate::{it};\n" for file in base.rglob("*.rt") for it in MACRO.findall(file.read_text()))
    for file in base.rglob("*.rt"):
        name = file.relative_to(base)
        if "tests" in str(name) or name.name in LEFT_OUT:
            continue
        text = plain(file.read_text(), crate, crates)
        path = folder / name.with_suffix(".rs")
        if str(name) == "lib.rt":
            text = re.sub(r"(?m)^(pub )?(mod|use) [^;]*(trial_source|trial_sink|read_source|write_sink)[^;]*;\n", "", text)
            text = re.sub(r"(?m)^//!.*\n", "", text) + macros
            path = folder / "mod.rs"
        path.parent.mkdir(parents=True, exist_ok=True)
        text = text.replace("#[cfg(test)]\nmod tests;\n", "")
        if crate == "chess_core" and name.name == "square.rt":
            head = r"(pub (?:const )?fn index\(self\) -> u8\s*)\{"
            text = re.sub(head, r"\1{\n        unsafe { std::hint::assert_unchecked(self.number < 64) };", text)
        path.write_text(text)


def main() -> None:
    tree, out = Path(sys.argv[1]), Path(sys.argv[2])
    crates = [it for it in CRATES if (tree / "crates" / it).exists()]
    source = out / "src"
    source.mkdir(parents=True, exist_ok=True)
    for crate in crates:
        write_crate(tree / "crates" / crate / "src", crate, crates, source / crate)
    for name, text in (("arrayvec", ARRAYVEC), ("memchr", MEMCHR), ("itoa", ITOA)):
        (source / f"{name}.rs").write_text(text)
    modules = "".join(f"mod {it};\n" for it in [*crates, *STAND_INS])
    (source / "main.rs").write_text(f"#![allow(warnings)]\n{modules}{MAIN}")
    (out / "Cargo.toml").write_text(CARGO)
    (out / ".cargo").mkdir(exist_ok=True)
    (out / ".cargo/config.toml").write_text(CARGO_CONFIG)


if __name__ == "__main__":
    main()
