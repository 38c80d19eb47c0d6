//! That the comparison of the matcher's answers and claims can fail.
//!
//! Each mistake is the reference with one thing wrong, put in the place of the
//! call. The sweep named beside it has to notice; the reference itself passes.
//!
//! - `answers`: the reference, which tells or writes something else than it found;
//! - `rules`: a matcher with a slot for each rule of search and trees, with another
//!   rule in one of them.

mod answers;
mod rules;

use zap_tests::matches::sweeps::{self, Sweep};
use zap_tests::matches::{Call, Trial};
use zap_tests::reference::answer::{MATCH, NO_MATCH};
use zap_tests::reference::claim::MATCH_MARK;
use zap_tests::wrong::all_noticed;

/// What is wrong, the wrong call, and the sweep that has to notice.
type Mistake = (&'static str, Call, Sweep);

#[test]
fn the_reference_passes() {
    for sweep in [sweeps::small_functions, sweeps::special_functions, sweeps::named_functions] {
        for call in [answers::unchanged(), rules::unchanged()] {
            assert_eq!(sweep(&mut Trial::new(call)), Ok(()));
        }
    }
}

#[test]
fn every_mistake_is_noticed() {
    all_noticed(answers::mistakes().into_iter().chain(rules::mistakes()), Trial::new);
}

/// The kind of a claim.
fn kind(claim: &[u8]) -> u64 {
    if claim.starts_with(&MATCH_MARK) {
        MATCH
    } else {
        NO_MATCH
    }
}
