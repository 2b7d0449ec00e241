//! Tests of the eBPF crates, a module for each.
//!
//! They come after all of them and call only what a user of those crates can call, so that no crate is proved again with
//! tests of its own. If there are many cases they are rows of one text, which one loop reads, so a case more costs
//! nothing: a row with a name says what it shows, and a line that begins with `#` says it of the rows below. What the built
//! program shows is tested by tests/commands instead. `surface` makes each public call of the crates up to ebpf_script once, so it is the
//! module to read first.

#[cfg(test)]
mod accepted;
#[cfg(test)]
mod assembly;
#[cfg(test)]
mod check;
#[cfg(test)]
mod events;
#[cfg(test)]
mod explain;
#[cfg(test)]
mod faults;
#[cfg(test)]
mod flow;
#[cfg(test)]
mod helpers;
#[cfg(test)]
mod insn;
#[cfg(test)]
mod layout;
#[cfg(test)]
mod library;
#[cfg(test)]
mod link;
#[cfg(test)]
mod loader;
#[cfg(test)]
mod machine;
#[cfg(test)]
mod memory;
#[cfg(test)]
mod object_commands;
mod object_file;
#[cfg(test)]
mod objects;
#[cfg(test)]
mod one;
#[cfg(test)]
mod operation;
#[cfg(test)]
mod pieces;
#[cfg(test)]
mod programs;
#[cfg(test)]
mod range;
#[cfg(test)]
mod refused;
#[cfg(test)]
mod run;
#[cfg(test)]
mod script;
#[cfg(test)]
mod shelves;
#[cfg(test)]
mod state;
#[cfg(test)]
mod streams;
#[cfg(test)]
mod surface;
#[cfg(test)]
mod text;
mod things;
#[cfg(test)]
mod unroll;
#[cfg(test)]
mod verify;
#[cfg(test)]
mod world;
