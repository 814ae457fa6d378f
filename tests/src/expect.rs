//! Cases with their answers written out. The library is asked with a pattern in the
//! output; nothing but the answer's list may change it.

use crate::cases::{hex, Case};
use crate::check::Checker;
use crate::library;

const PATTERN: u32 = 0xdead_beef;

/// The case answers this list and leaves the words past it; the reference says so too.
pub fn gives(case: &Case, list: &[u32]) {
    Checker::new(7).check(case);
    library_gives(case, list);
}

/// The case is refused on this ground and nothing is written; the reference says so too.
pub fn refused(case: &Case, ground: i64) {
    Checker::new(8).check(case);
    library_refuses(case, ground);
}

/// `gives` without the reference, for searches that are too long for it.
pub fn library_gives(case: &Case, list: &[u32]) {
    let (answer, out) = ask(case);
    let mut wanted = vec![PATTERN; case.out_n];
    wanted[..list.len()].copy_from_slice(list);
    assert_eq!(answer, list.len() as i64, "{case}");
    assert_eq!(
        out,
        wanted,
        "{case}: found {}, wanted {}",
        hex(&out),
        hex(&wanted)
    );
}

/// `refused` without the reference.
pub fn library_refuses(case: &Case, ground: i64) {
    let (answer, out) = ask(case);
    assert_eq!(answer, -ground, "{case}");
    let untouched = out.iter().all(|&word| word == PATTERN);
    assert!(untouched, "{case}: wrote {}", hex(&out));
}

fn ask(case: &Case) -> (i64, Vec<u32>) {
    let mut out = vec![PATTERN; case.out_n];
    let offset = (case.dx, case.dy);
    let answer = library::run(case.call, &case.a, &case.b, offset, &mut out);
    (answer, out)
}
