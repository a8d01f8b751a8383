//! The calls on the sorted list as a slice of structs. They are not in the C interface, so the cases go as frozen questions to the proved program
//! `replay_scl`, which makes the calls and writes the answers: number and detail, or value, and every place of the lent columns and of
//! the list, those of a refused call too. What they should be is what the column call should give in that room.

use crate::freeze::{List, text};
use crate::freeze_entries as lines;
use crate::inputs::{Random, drawn};
use crate::rules_scl;
use crate::scl_read::random_text;
use crate::tally::{Report, Tally};
use std::io::{Result, Write};
use std::process::{Command, Stdio};

/// Starts the program, which is built.
const START: &str = concat!(env!("CARGO_MANIFEST_DIR"), "/../tools/start");

/// What the program answers to questions. It reads all of them before it writes.
fn replayed(questions: &[String]) -> Result<String> {
    let mut program = Command::new(START).arg("replay_scl").stdin(Stdio::piped()).stdout(Stdio::piped()).spawn()?;
    program.stdin.take().into_iter().try_for_each(|mut pipe| pipe.write_all(text(questions).as_bytes()))?;
    let said = program.wait_with_output()?;
    Ok(String::from_utf8_lossy(&said.stdout).into_owned())
}

/// A list counted and replayed; of one that is not the same, the questions whose answers differ.
fn replay(tally: &mut Tally, list: &List) {
    let said = replayed(&list.questions).unwrap_or_default();
    tally.replayed(&list.said, said == text(&list.answers));
    if said != text(&list.answers) {
        let mut answers = said.lines();
        for (question, answer) in list.questions.iter().zip(&list.answers) {
            let said = answers.next().unwrap_or_default();
            tally.require(said == answer, &format!("{question}: {said}, and not {answer}"));
        }
    }
}

const LISTS: usize = 12;
const BYTES: usize = 16_384;

/// Lists of so many bytes of questions.
fn lists(tally: &mut Tally, stream: u64, mut line: impl FnMut(&mut Random, &mut List)) {
    let mut random = Random::new(stream);
    for _ in drawn(LISTS) {
        let (mut list, mut bytes) = (List::default(), 0);
        while bytes < BYTES {
            line(&mut random, &mut list);
            bytes += list.questions.last().map_or(0, |line| line.len() + 1);
        }
        replay(tally, &list);
    }
}

/// A text of at most so many items, and how many a read of it finds; or where it is refused, any number.
fn text_and_count(random: &mut Random, most: u64) -> (Vec<u8>, usize) {
    let (text, any) = (random_text(random, most), random.next() as usize % 10);
    let read = rules_scl::read(&text, 8).ok().filter(|_| random.next() % 16 != 0);
    let count = read.map_or(any, |(_, _, items)| items.len() - 1);
    (text, count)
}

/// What is looked for: near and far, or out of the range.
fn random_target(random: &mut Random) -> f64 {
    match random.next() % 4 {
        0 => random.ratio(66),
        1 => random.ratio(2),
        2 => 1.0 + random.unit(),
        _ => [1.0, 1.5, 2.0, 1.5f64.next_up(), 4.0 / 3.0, 2f64.sqrt(), 0.5, f64::NAN][random.next() as usize % 8],
    }
}

pub fn compare(all: &mut Report) {
    all.function("read_entries", &[1, 2, 3, 4, 5, 6, 9, 10, 12, 14, 18], |tally| lists(tally, 60, |random, list| lines::read(list, &random_text(random, 9))));
    all.function("build_entries", &[10, 18], |tally| {
        lists(tally, 61, |random, list| {
            let (text, count) = text_and_count(random, 7);
            // a count of fewer items is a scale too
            let less = random.next() as usize % 6;
            lines::build(list, &text, count + 1 + random.next() as usize % 3, if less < count { count - less } else { count });
        });
    });
    all.function("find_in_entries", &[10, 18], |tally| {
        lists(tally, 62, |random, list| {
            let (text, count) = text_and_count(random, 7);
            lines::find(list, &text, count as u16, random.next() % 2 == 0, random_target(random));
        });
    });
}
