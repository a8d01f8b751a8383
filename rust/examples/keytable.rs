//! Prints, for each key of a mapping, its degree, its pitch in Hz and its cents from the reference pitch, or why it has none: what the program
//! `keytable` prints. The program's own limits (65,536 bytes, 8,191 items, 8,192 entries) are not here: `Scale` and `Mapping` own as much as the text needs.
//!
//!     cargo run --manifest-path rust/Cargo.toml --example keytable -- examples/just.scl examples/linear.kbm
//!     cargo run --manifest-path rust/Cargo.toml --example keytable -- examples/just.scl examples/harp.kbm middle

use std::fs::File;
use std::io::{self, BufWriter, Read, Write};
use std::process::ExitCode;
use telbijan::{number, ratio, Mapping, Refusal, Scale};

/// The most keys that are shown.
const MOST: i64 = 1024;

/// 2^53, the largest number that is written with decimals.
const LARGEST: f64 = 9007199254740992.0;

/// The required lines of both files.
const SCALE_LINES: [&str; 2] = ["the description", "the number of notes"];
const MAPPING_LINES: [&str; 7] = ["the size", "the first key", "the last key", "the middle key", "the reference key", "the reference pitch", "the formal octave"];

fn read<T>(name: &str, required: &[&str], parse: impl FnOnce(&[u8]) -> Result<T, Refusal>) -> Result<T, String> {
    let mut text = Vec::new();
    let mut file = File::open(name).map_err(|_| format!("{name}: cannot be opened"))?;
    file.read_to_end(&mut text).map_err(|_| format!("{name}: cannot be read"))?;
    parse(&text).map_err(|refusal| match refusal.line() {
        Some(line) => format!("{name}:{line}: {}", refusal.reason()),
        None if refusal.number() == number::LINE_MISSING => format!("{name}: {} is missing", required[refusal.detail() as usize - 1]),
        None => format!("{name}: {}", refusal.reason()),
    })
}

/// A number with three decimals, or a word for one above 2^53.
fn three(x: f64) -> String {
    if x.abs() <= LARGEST {
        format!("{x:.3}")
    } else {
        "above-2^53".to_string()
    }
}

/// Which key is counted from.
#[derive(Clone, Copy)]
enum Counting {
    Reference,
    Middle,
}

/// What stands beside a key: degree, pitch, and cents or why these cannot be said.
fn line(scale: &Scale, mapping: &Mapping, counting: Counting, key: i32) -> Result<String, Refusal> {
    let (tuning, view) = (mapping.over(scale), mapping.view());
    let (hz, degree) = match counting {
        Counting::Reference => (tuning.pitch_of(key)?, view.degree_of(key)?),
        Counting::Middle => (tuning.pitch_from_middle(key)?, view.degree_from_middle(key)?),
    };
    let cents = ratio::between_pitches(mapping.view().numbers.root.hz, hz).and_then(ratio::as_cents);
    Ok(format!("{degree} {} {}", three(hz), cents.map_or_else(|refusal| refusal.reason().to_string(), three)))
}

fn print(out: &mut impl Write, scale: &Scale, mapping: &Mapping, counting: Counting) -> io::Result<()> {
    let numbers = mapping.view().numbers;
    let (first, end) = (i64::from(numbers.start), i64::from(numbers.end));
    let from = match counting {
        Counting::Reference => "reference",
        Counting::Middle => "middle",
    };
    writeln!(out, "key degree Hz cents, counted from the {from} key")?;
    for key in (first..end.min(first + MOST)).map(|key| key as i32) {
        match line(scale, mapping, counting, key) {
            Ok(words) => writeln!(out, "{key} {words}")?,
            Err(refusal) if refusal.number() == number::UNMAPPED_KEY => writeln!(out, "{key} unmapped")?,
            Err(refusal) => writeln!(out, "{key} {}", refusal.reason())?,
        }
    }
    match end - first - MOST {
        left if left > i64::from(i32::MAX) => writeln!(out, "over {} keys more", i32::MAX)?,
        left if left > 0 => writeln!(out, "{left} keys more")?,
        _ => (),
    }
    out.flush()
}

fn table(scl: &str, kbm: &str, counting: Counting) -> Result<(), String> {
    let (scale, mapping) = (read(scl, &SCALE_LINES, Scale::read)?, read(kbm, &MAPPING_LINES, Mapping::read)?);
    print(&mut BufWriter::new(io::stdout().lock()), &scale, &mapping, counting)
        .map_err(|_| "keytable: standard output cannot be written".to_string())
}

fn main() -> ExitCode {
    let words: Vec<String> = std::env::args().skip(1).collect();
    let words: Vec<&str> = words.iter().map(String::as_str).collect();
    let said = match words[..] {
        [scl, kbm] | [scl, kbm, "reference"] => table(scl, kbm, Counting::Reference),
        [scl, kbm, "middle"] => table(scl, kbm, Counting::Middle),
        _ => Err("usage: keytable SCL KBM [reference | middle]".to_string()),
    };
    said.map_or_else(
        |why| {
            eprintln!("{why}");
            ExitCode::FAILURE
        },
        |()| ExitCode::SUCCESS,
    )
}
