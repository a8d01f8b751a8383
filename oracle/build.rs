//! Links the proved library, which `tools/native-lib` wrote to target/native; and writes the sources of E's and L's tables as Rust, for
//! `decided`.

use std::fmt::Write;
use std::fs;

/// The crates whose code is taken as it stands, and of explog the two modules that ask the tables.
const TAKEN: [(&str, &[&str]); 6] = [
    ("wide", &["lib"]),
    ("power_first", &["lib"]),
    ("power_products", &["lib"]),
    ("power_sums", &["lib"]),
    ("log_roots", &["lib"]),
    ("log_guess", &["lib", "table"]),
];
const ASKING: [&str; 2] = ["exp_near", "log_near"];

/// A source without its contracts and what else is the prover's: what is left is Rust.
fn as_rust(path: &str) -> String {
    println!("cargo:rerun-if-changed={path}");
    let text = fs::read_to_string(path).unwrap();
    let mut rust = String::new();
    let mut open = 0;
    for line in text.lines() {
        let word = line.trim_start();
        let clause = word.starts_with("ensures ") || word.starts_with("requires ");
        if clause || open > 0 {
            open += line.matches('{').count() as i32 - line.matches('}').count() as i32;
        } else if !["ghost use ", "mod ", "//", "#![tactic"].iter().any(|begin| word.starts_with(begin)) {
            writeln!(rust, "{line}").unwrap();
        }
    }
    let written = [("std::num::wrapping_sub_u64(", "u64::wrapping_sub("), ("std::num::wrapping_add_u64(", "u64::wrapping_add("), ("crate::table::", "table::")];
    written.iter().fold(rust, |rust, (here, there)| rust.replace(here, there))
}

fn main() {
    let here = std::env::var("CARGO_MANIFEST_DIR").unwrap();
    let folder = format!("{here}/../target/native");
    println!("cargo:rustc-link-search=native={folder}");
    for library in ["telbijan", "probes"] {
        println!("cargo:rustc-link-lib=static={library}");
        println!("cargo:rerun-if-changed={folder}/lib{library}.a");
    }
    let mut shown = String::new();
    for (name, files) in TAKEN {
        writeln!(shown, "pub mod {name} {{").unwrap();
        for file in files {
            let rust = as_rust(&format!("{here}/../crates/{name}/src/{file}.rt"));
            let above = if rust.contains("wide::") { "use super::wide;\n" } else { "" };
            let wrapped = if *file == "lib" { rust } else { format!("mod {file} {{\n{rust}}}\n") };
            shown.push_str(&(above.to_string() + &wrapped));
        }
        shown.push_str("}\n");
    }
    for name in ASKING {
        let rust = as_rust(&format!("{here}/../crates/explog/src/{name}.rt"));
        writeln!(shown, "pub mod {name} {{\nuse super::*;\n{rust}}}").unwrap();
    }
    fs::write(format!("{}/tables.rs", std::env::var("OUT_DIR").unwrap()), shown).unwrap();
}
