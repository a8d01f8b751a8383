//! Backwards ranges (document 02, W8): mappings whose last key is below their first. A read and a build refuse one with 25; the Rust takes
//! it, so that the rules decide. Calls that are lent such a range by value answer as the Rust does.

use crate::backwards_builds::built;
use crate::backwards_cases::LENT;
use crate::backwards_texts::reads;
use crate::ffi_kbm::{self, Mapping};
use crate::inputs::with_fixed;
use crate::kbm_read::one_read;
use crate::kbm_use::{self, BYTE, SAMPLE};
use crate::lent;
use crate::rules::{self, UNMAPPED};
use crate::tally::{Code, Report, Said, Tally};
use crate::tuning::{self, Built};
use crate::{ffi, ffi_tuning, rust_kbm};

/// So many lent mappings are backwards.
const LEAST: usize = 28;

/// The degree and the pitches of a key, which is in no backwards range.
fn lent_key(tally: &mut Tally, b: &Built, m: Mapping, map: &[i32], key: i32) {
    let (kbm, degree) = (rust_kbm::of(m, map), key.wrapping_sub(m.reference));
    let pitch = tuning::maybe_pitch(b, m, map, &kbm, key);
    tally.require(rules::degree(m, map, key) == Err((16, 0)) && pitch.code == Code::refusal(16, 0), (m, key));
    tally.same((m, key), ffi_kbm::scale_degree_of(m, map, key), kbm_use::degree(m, map, key));
    let by_degree = ffi_tuning::maybe_pitch_of_degree(&b.columns, b.count, m, map, degree);
    tally.same((m, degree), by_degree, tuning::maybe_degree_pitch(b, m, map, &kbm, degree));
    let (old, mut numbers) = (lent::column(1), vec![ffi::OLD_U32]);
    let mut pitches = old.clone();
    let code = ffi_tuning::pitches_of(&b.columns, b.count, m, map, key, 1, &mut pitches, &mut numbers);
    tally.same((m, key), (code, (pitches, numbers)), Said::gives(pitch.who, (old, vec![16])));
    tally.same((m, key), ffi_tuning::maybe_pitch_of(&b.columns, b.count, m, map, key), pitch);
}

/// The export, as the Rust writes it; and that no read takes it back.
fn lent_export(tally: &mut Tally, m: Mapping, map: &[i32]) {
    let mut out = vec![BYTE; 99];
    let (code, written) = ffi_kbm::export_kbm(m, map, &mut out);
    tally.same(m, (code, (written, out.clone())), kbm_use::export(m, map, 99));
    if code == Code::ACCEPTED {
        let text = &out[..written];
        tally.require(rules::read(text, 3).err() == Some((25, 3)), (m, "is read again"));
        one_read(tally, text, 3);
    }
}

fn lent(tally: &mut Tally) {
    let (scales, mut backwards) = (tuning::named(), 0);
    for (start, end, key) in LENT {
        for map in [&[][..], &[0, UNMAPPED, 2]] {
            let m = Mapping { start, end, count: map.len() as u16, ..SAMPLE };
            backwards += usize::from(rules::is_backwards(start, end));
            lent_key(tally, &scales[3], m, map, key);
            lent_export(tally, m, map);
        }
    }
    tally.require(backwards >= LEAST, ("too few lent mappings", backwards));
}

pub fn compare(all: &mut Report) {
    all.function("backwards ranges, read", &[1, 2, 3, 7, 8, 9, 10, 11, 12, 13, 14, 25], reads);
    all.function("backwards ranges, built", &[10, 13, 15, 25], built);
    if with_fixed() {
        all.function("backwards ranges, lent", &[11, 16, 25], lent);
    }
}
