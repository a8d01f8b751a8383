//! The comparison's own verdict, held to what it must refuse: `oracle judged`. Each case is a report that lacks something, and what must
//! be said of it.

use crate::backwards_wrong;
use crate::best_wrong;
use crate::calls;
use crate::ffi;
use crate::middle_wrong;
use crate::middle_wrong_runs;
use crate::powers;
use crate::tally::{Code, Report, Said, Tally, Who};

/// A call that is compared, and what it should answer.
fn compared(tally: &mut Tally, number: i32, theirs: Said<u8>) {
    tally.same(number, ffi::checked_midi_number(number), theirs);
}

fn accepted() -> Said<u8> {
    Said::gives(Who::Rust, 60)
}

fn refused() -> Said<u8> {
    Said::refused(Who::Rust, 16, 0, ffi::OLD_U8)
}

/// What a comparison of one function does, and the fault that is found in it.
type Case = (fn(&mut Tally), &'static str);

const CASES: [Case; 7] = [
    (|_| (), "midi: the Rust answered no case"),
    (|tally| (0..0).for_each(|number| compared(tally, number, accepted())), "telbijan_checked_midi_number: no answer was compared"),
    (|_| assert!(ffi::checked_midi_number(60).1 == 60), "telbijan_checked_midi_number: no answer was compared"),
    (|tally| tally.same(60, (Code::ACCEPTED, 60), accepted()), "midi: 1 cases with no call of the library"),
    (|tally| compared(tally, 60, accepted()), "telbijan_checked_midi_number: no refusal was compared"),
    (|tally| compared(tally, 128, refused()), "telbijan_checked_midi_number: no answer was compared"),
    (|tally| compared(tally, 128, refused()), "midi: the refusals should be {10}"),
];

/// Whether each case is found out, those that are not being said; whether a call that is compared on both sides is found to lack
/// nothing; whether another value, number or detail than the Rust's is a difference; and whether what the tests of E, of the nearest of all
/// fractions, of backwards ranges and of counting from the middle key must see is seen.
pub fn judged() -> bool {
    let faults = |name: &str, cases: fn(&mut Tally)| {
        let mut report = Report::silent();
        report.function(name, &[10], cases);
        report.count_calls();
        (report.differences(), report.lacking())
    };
    let mut held = true;
    for (k, (cases, fault)) in CASES.into_iter().enumerate() {
        if !faults("midi", cases).1.iter().any(|said| said == fault) {
            println!("judged: case {k} is not found out: {fault}");
            held = false;
        }
    }
    let (differences, lacking) = faults("judged, must differ", |tally| {
        compared(tally, 60, accepted());
        compared(tally, 128, refused());
        compared(tally, 60, Said::gives(Who::Rust, 61));
        compared(tally, 128, Said::refused(Who::Rust, 10, 0, ffi::OLD_U8));
        compared(tally, 128, Said::refused(Who::Rust, 16, 1, ffi::OLD_U8));
    });
    let lacks = |start: &str| lacking.iter().any(|said| said.starts_with(start));
    if differences != 3 || lacks("telbijan_checked_midi_number: ") || !lacks("telbijan_exp2: no answer was compared") {
        println!("judged: {differences} differences, {lacking:?}");
        held = false;
    }
    if calls::lacking(&calls::taken()).len() < 100 || Code::refusal(16, 0) != ffi::checked_midi_number(128).0 {
        println!("judged: nothing is compared, and too little is lacking");
        held = false;
    }
    let unseen = [powers::unseen(), best_wrong::unseen(), backwards_wrong::unseen(), middle_wrong::unseen(), middle_wrong_runs::unseen()];
    for unseen in unseen.concat() {
        println!("judged: not seen: {unseen}");
        held = false;
    }
    held
}
