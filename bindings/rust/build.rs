//! Says where the C library is: in the folder that EBPF_HOST_LIBRARY_DIR names, or else where pkg-config says.

use std::env;
use std::path::Path;
use std::process::{exit, Command};

fn main() {
    println!("cargo:rerun-if-changed=build.rs");
    println!("cargo:rerun-if-env-changed=EBPF_HOST_LIBRARY_DIR");
    println!("cargo:rerun-if-env-changed=PKG_CONFIG_PATH");
    match env::var_os("EBPF_HOST_LIBRARY_DIR") {
        Some(folder) => link_from(Path::new(&folder)),
        None => link_installed(),
    }
}

/// Links the archive of a folder, or the shared library if it has no archive.
fn link_from(folder: &Path) {
    let archive = folder.join("libebpf_host.a");
    println!("cargo:rerun-if-changed={}", archive.display());
    println!("cargo:rustc-link-search=native={}", folder.display());
    println!("cargo:rustc-link-lib={}=ebpf_host", if archive.exists() { "static" } else { "dylib" });
}

/// Links the installed library.
fn link_installed() {
    let answer = Command::new("pkg-config").args(["--libs", "ebpf_host"]).output();
    let words = match answer {
        Ok(answer) if answer.status.success() => String::from_utf8_lossy(&answer.stdout).into_owned(),
        _ => {
            eprintln!("ebpf-host: pkg-config knows no ebpf_host: install the library, or set EBPF_HOST_LIBRARY_DIR to the folder that has it");
            exit(1)
        }
    };
    for word in words.split_whitespace() {
        match word.split_at(word.len().min(2)) {
            ("-L", folder) => println!("cargo:rustc-link-search=native={folder}"),
            ("-l", name) => println!("cargo:rustc-link-lib={name}"),
            _ => {}
        }
    }
}
