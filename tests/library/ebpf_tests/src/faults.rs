//! The words of the faults that are in no other module.

use crate::programs::is_text;
use ebpf_command::done::EngineFault;
use ebpf_flow::fault::{FlowCode, FlowFault};
use ebpf_machine::run::StartFault;
use ebpf_state::state::JoinFault;
use ebpf_verify::fault::{VerifyCode, VerifyFault};
use std::alloc::{AllocError, Global};

// Of each fault a line, in the order of `faults`.
const WORDS: &str = "\
slot 3 is refused with JumpIntoWide
out of memory
slot 4095 is refused with PathsDiffer
out of memory
the paths that meet hold different references
out of memory
the context doesn't have the declared length
out of memory
input
output
no memory
";

// The faults of the crates below the commands, and those of the commands, in words.
fn faults(alloc: Global) -> Result<String, AllocError> {
    let mut text = String::new(alloc);
    let slot = 3;
    let code = FlowCode::JumpIntoWide;
    write!(
        text,
        "{}\n{}\n",
        FlowFault::Bad { slot, code },
        FlowFault::NoMemory
    )?;
    let slot = 4095;
    let code = VerifyCode::PathsDiffer;
    write!(
        text,
        "{}\n{}\n",
        VerifyFault::Refused { slot, code },
        VerifyFault::NoMemory
    )?;
    write!(text, "{}\n{}\n", JoinFault::HeldDiffer, JoinFault::NoMemory)?;
    write!(
        text,
        "{}\n{}\n",
        StartFault::ContextLength,
        StartFault::NoMemory
    )?;
    write!(text, "{}\n{}\n", EngineFault::Input, EngineFault::Output)?;
    write!(text, "{}\n", EngineFault::NoMemory)?;
    Ok(text)
}

#[test]
fn faults_are_written_in_words(rt: HostRuntime) {
    let text = faults(rt.alloc()).expect(&rt, "out of memory");
    is_text(&rt, "the words of faults", text.as_str(), WORDS);
}
