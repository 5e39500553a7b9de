//! Links the static library and declares those of its calls that exist.

use std::path::PathBuf;
use std::process::Command;
use std::{env, fs};

fn main() {
    let here = PathBuf::from(env::var("CARGO_MANIFEST_DIR").unwrap());
    let given = env::var("TICKET_LIB").map(PathBuf::from);
    let library = given.unwrap_or_else(|_| here.join("../../target/staticlib/libticket.a"));
    println!("cargo::rerun-if-env-changed=TICKET_LIB");
    println!("cargo::rerun-if-changed={}", library.display());
    println!("cargo::rustc-link-arg={}", library.display());
    assert!(library.exists(), "{}: run `tools/archive`, or set TICKET_LIB", library.display());

    let nm = Command::new("nm").args(["-g", "--defined-only"]).arg(&library).output().expect("nm");
    let symbols = String::from_utf8(nm.stdout).unwrap();
    let exists = |name: &str| symbols.lines().any(|line| line.ends_with(&format!(" T cabbagetier_{name}")));
    let calls = ["check", "levels", "compact", "merge", "rewrite"].map(|name| bind(name, exists(name)));
    fs::write(PathBuf::from(env::var("OUT_DIR").unwrap()).join("library.rs"), calls.concat()).unwrap();
}

/// A function that gives the library's call, or nothing where the library has none.
fn bind(name: &str, exists: bool) -> String {
    let kind = match name {
        "check" => "CheckCall",
        "levels" => "LevelsCall",
        _ => "TicketCall",
    };
    let (slices, symbol) = (slices(name), format!("cabbagetier_{name}"));
    if !exists {
        return format!("pub fn {name}() -> Option<{kind}> {{ None }}\n");
    }
    format!(
        "unsafe extern \"C\" {{ fn {symbol}({slices}) -> u32; }}\n\
         pub fn {name}() -> Option<{kind}> {{ Some({symbol}) }}\n"
    )
}

fn slices(name: &str) -> String {
    let [ticket, levels, work, reply, answer] = [
        "ticket: *const u8, ticket_len: usize, ",
        "levels: *const u8, levels_len: usize, ",
        "work: *mut u32, work_len: usize, ",
        "reply: *mut u8, reply_len: usize, ",
        "answer: *mut u32",
    ];
    match name {
        "check" => [ticket, work, answer].concat(),
        "levels" => [ticket, levels, work, reply, answer].concat(),
        _ => [ticket, work, reply, answer].concat(),
    }
}
