//! Jobs whose memory is refused.

use crate::done::done;
use crate::jobs::setting_of;
use crate::programs::programs_for;
use std::alloc::Global;
use std::process::Abort;
use std::sync::Wait;
use std::thread::Threads;
use worker_pool::NoGate;

// No matter what is refused, the jobs of a setting are done and add up, or want of memory is reported, with all seats back.
fn is_answered<R: Threads + Wait + Abort + Print + Sync>(rt: &R, alloc: Global, setting: &str) {
    let setting = setting_of(setting);
    let Ok(programs) = programs_for(alloc, setting.letters) else {
        return;
    };
    match done(rt, alloc, programs, &setting, &NoGate) {
        Ok(text) => {
            // The script that refuses memory looks for each of the outcomes.
            let _ = println!(rt; "memory: {text}");
        }
        Err(_) => {
            let _ = println!(rt; "memory: none");
        }
    }
}

#[test]
fn one_worker_adds_up_whatever_memory_is_refused(rt: HostRuntime) {
    is_answered(&rt, rt.alloc(), "1 2 0 0 1 b");
}

#[test]
fn a_shelf_adds_up_whatever_memory_is_refused(rt: HostRuntime) {
    is_answered(&rt, rt.alloc(), "1 2 0 0 3 hhi");
}

#[test]
fn three_shelves_add_up_whatever_memory_is_refused(rt: HostRuntime) {
    is_answered(&rt, rt.alloc(), "3 4 2 0 12 jklmno");
}

#[test]
fn workers_add_up_whatever_memory_is_refused(rt: HostRuntime) {
    is_answered(&rt, rt.alloc(), "3 4 2 0 12 abf");
}
