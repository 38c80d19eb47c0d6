//! That the comparison of claims can fail.
//!
//! Each mistake is the reference with one thing wrong, put in the place of the
//! call. The sweep named beside it has to notice; the reference itself passes.
//!
//! - `answers`: the reference, which tells another answer than the one it found;
//! - `rules`: a checker with a slot for each rule of wirings and trees, with
//!   another rule in one of them.

mod answers;
mod rules;

use zap_tests::claims::sweeps::{self, Sweep};
use zap_tests::claims::{Call, Trial};
use zap_tests::wrong::all_noticed;

/// What is wrong, the wrong call, and the sweep that has to notice.
type Mistake = (&'static str, Call, Sweep);

#[test]
fn the_reference_passes() {
    let sweeps: [Sweep; 5] = [
        sweeps::short_claims,
        sweeps::match_claims,
        sweeps::forged_claims,
        sweeps::known_patterns,
        sweeps::clashing_records,
    ];
    for sweep in sweeps {
        for call in [answers::unchanged(), rules::unchanged()] {
            assert_eq!(sweep(&mut Trial::new(call)), Ok(()));
        }
    }
}

#[test]
fn every_mistake_is_noticed() {
    all_noticed(answers::mistakes().into_iter().chain(rules::mistakes()), Trial::new);
}
