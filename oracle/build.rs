//! Lays the unchanged text of the Rust original, with our probe behind it, where the crate can compile it; and once more with edition
//! 2's two thresholds of slope (02, A6) in the place of its own.
//! The original is read from the folder in MOWFROST_RUST (absolute, or relative to oracle/), by default from
//! ../shared/docs/src beside the repository. Its text goes to cargo's output folder and nowhere else.
//! Links the port's two static libraries, `capi` and `probe`, where they were built (`tools/staticlib NAME`) and this machine can run
//! them, or those in the folder MOWFROST_PORT.

use std::path::{Path, PathBuf};
use std::{env, fs, process};

const QTO: &str = "crates/core/src/mesh/qto.rs";
const PROFILE_CHECK: &str = "crates/core/src/mesh/profile_check.rs";

/// FNV-1a of qto.rs at the commit that is ported, fd5a4a607b.
const QTO_AS_PORTED: u64 = 0x40bd_0ba7_bba1_f74b;

fn main() {
    println!("cargo:rerun-if-env-changed=MOWFROST_RUST");
    println!("cargo:rerun-if-env-changed=MOWFROST_PORT");
    println!("cargo:rerun-if-changed=probe.rs");
    println!("cargo:rerun-if-changed=build.rs");
    let here = PathBuf::from(env::var_os("CARGO_MANIFEST_DIR").expect("cargo sets CARGO_MANIFEST_DIR"));
    let out = PathBuf::from(env::var_os("OUT_DIR").expect("cargo sets OUT_DIR"));
    let source = match env::var_os("MOWFROST_RUST") {
        Some(folder) => PathBuf::from(folder),
        None => here.join("../../shared/docs/src"),
    };

    let qto = read(&source, QTO);
    if fnv1a(&qto) != QTO_AS_PORTED {
        println!("cargo:warning={QTO} is not the text of the commit that was ported (hash {:#x})", fnv1a(&qto));
    }
    let probe = read(&here, "probe.rs");
    let defect = profile_defect(&read(&source, PROFILE_CHECK));

    let (qto_out, second_out) = (out.join("qto.rs"), out.join("second.rs"));
    write(&qto_out, &format!("{qto}\n{probe}"));
    write(&second_out, &second(&qto));
    write(
        &out.join("original.rs"),
        &format!(
            "pub mod profile_check {{\n{defect}\n}}\n#[path = {qto_out:?}]\npub mod qto;\n\
             #[path = {second_out:?}]\npub mod second;\n"
        ),
    );
    link_port(&here);
}

/// The thresholds of slope in the original, and those of edition 2.
const THRESHOLDS: [[&str; 2]; 2] = [["f32 = 0.940;", "f32 = 0.866;"], ["f32 = 0.342;", "f32 = 0.5;"]];

/// The original with two numbers changed, each where it stands once, and nothing else.
fn second(qto: &str) -> String {
    THRESHOLDS.iter().fold(qto.to_string(), |text, [first, second]| {
        if text.matches(first).count() != 1 {
            fail(&format!("{QTO} has not one `{first}`"));
        }
        text.replace(first, second)
    })
}

/// `capi` is what is shipped, `probe` is for these runs alone. Each is one object in which only the exports are global, so that both can be
/// linked although the same internal functions stand in them.
const LIBRARIES: [&str; 2] = ["capi", "probe"];

/// Sets `port` where both static libraries are there. They are x86-64 code, so on another machine the runs against the port
/// are left out, with a warning; so they are before the libraries are built. MOWFROST_PORT (absolute, or relative to oracle/) is a
/// folder with libraries for the machine that is built for, whatever it is; there both have to be.
fn link_port(here: &Path) {
    println!("cargo:rustc-check-cfg=cfg(port)");
    let named = env::var_os("MOWFROST_PORT").map(|folder| here.join(folder));
    let fits = named.is_some() || env::var("CARGO_CFG_TARGET_ARCH").is_ok_and(|arch| arch == "x86_64");
    let must = named.is_some();
    let folder = named.unwrap_or_else(|| here.join("../target/staticlib"));
    let mut missing = Vec::new();
    for name in LIBRARIES {
        let library = folder.join(format!("lib{name}.a"));
        println!("cargo:rerun-if-changed={}", library.display());
        if !library.exists() {
            missing.push(format!("lib{name}.a"));
        }
    }
    if !fits {
        println!("cargo:warning=the runs against the port are left out: its libraries are x86-64 code, and MOWFROST_PORT names no others");
    } else if missing.is_empty() {
        println!("cargo:rustc-cfg=port");
        println!("cargo:rustc-link-search=native={}", folder.display());
        LIBRARIES.iter().for_each(|name| println!("cargo:rustc-link-lib=static={name}"));
    } else if must {
        fail(&format!("MOWFROST_PORT is {}, which has no {}", folder.display(), missing.join(" and no ")));
    } else {
        println!(
            "cargo:warning=the runs against the port are left out: target/staticlib has no {}; at the root: tools/staticlib capi and \
             tools/staticlib probe",
            missing.join(" and no ")
        );
    }
}

/// `enum ProfileDefect` and its `impl`: all that document 01 takes from profile_check.rs.
fn profile_defect(text: &str) -> String {
    let parts = text
        .find("pub enum ProfileDefect")
        .and_then(|at| text[..at].rfind("#[derive").map(|start| (start, at)))
        .and_then(|(start, at)| block_end(text, at).map(|end| &text[start..end]))
        .zip(text.find("impl ProfileDefect").and_then(|at| block_end(text, at).map(|end| &text[at..end])));
    match parts {
        Some((declared, methods)) => format!("{declared}\n{methods}"),
        None => fail(&format!("{PROFILE_CHECK} has no `enum ProfileDefect` with an `impl`")),
    }
}

/// Where the first brace block at or after `at` ends.
fn block_end(text: &str, at: usize) -> Option<usize> {
    let mut depth = 0usize;
    for (i, c) in text[at..].char_indices() {
        match c {
            '{' => depth += 1,
            '}' if depth == 1 => return Some(at + i + 1),
            '}' => depth = depth.checked_sub(1)?,
            _ => {}
        }
    }
    None
}

fn fnv1a(text: &str) -> u64 {
    text.bytes().fold(0xcbf2_9ce4_8422_2325, |h, b| (h ^ b as u64).wrapping_mul(0x100_0000_01b3))
}

fn read(folder: &Path, name: &str) -> String {
    let path = folder.join(name);
    println!("cargo:rerun-if-changed={}", path.display());
    fs::read_to_string(&path).unwrap_or_else(|e| {
        fail(&format!(
            "cannot read the Rust original: {}: {e}\n\
             Set MOWFROST_RUST to a folder that has {QTO} of EdvardGK/ifcfast, commit fd5a4a607b.\n\
             Only the differential runs need it: the gate (.ci/run) does not.",
            path.display()
        ))
    })
}

fn write(path: &Path, text: &str) {
    fs::write(path, text).unwrap_or_else(|e| fail(&format!("cannot write {}: {e}", path.display())));
}

fn fail(why: &str) -> ! {
    eprintln!("oracle: {why}");
    process::exit(1);
}
