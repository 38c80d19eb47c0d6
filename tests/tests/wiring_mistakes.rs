//! That the comparison of dead pairs can fail.
//!
//! Each mistake below is the reference with one thing wrong, put in the place of
//! the call. The sweep named beside it has to notice; the reference itself passes.

use zap_tests::calls::DeadCall;
use zap_tests::reference::agreement::{Table, Tables};
use zap_tests::reference::dead::{dead, find, find_in, Found};
use zap_tests::reference::pair::{asks, separates, Pair};
use zap_tests::reference::pattern::Cube;
use zap_tests::reference::record::function;
use zap_tests::reference::two::{two, Two};
use zap_tests::reference::wiring::{BadWiring, Choice, Partial};
use zap_tests::wirings::sweeps::{self, Sweep};
use zap_tests::wirings::Trial;
use zap_tests::wrong::all_noticed;

/// The reference in the form of the call.
const RIGHT: DeadCall = |f, g, w, q| find(f, g, w, q).packed();

#[test]
fn the_reference_passes() {
    for sweep in [sweeps::every_prefix, sweeps::bad_records, sweeps::named_functions] {
        assert_eq!(sweep(&mut Trial::new(RIGHT)), Ok(()));
    }
}

#[test]
fn every_mistake_is_noticed() {
    all_noticed([separation(), order(), phase(), refusals()].concat(), Trial::new);
}

type Mistake = (&'static str, DeadCall, Sweep);

/// What was asked, where nothing is refused.
fn asked(f: &[u8], g: &[u8], w: &[u8]) -> Option<(Two, Partial)> {
    let two = two(f, g).ok()?;
    let partial = Partial::from_bytes(w, two.n()).ok()?;
    Some((two, partial))
}

fn packed(pair: Option<Pair>) -> u64 {
    pair.map_or(Found::Nothing, Found::Pair).packed()
}

// ---- Which pairs are dead ----

/// The first pair in order that another test calls dead.
fn first(f: &[u8], g: &[u8], w: &[u8], q: u8, dead: fn(&Partial, Cube, Cube) -> bool) -> u64 {
    match asked(f, g, w) {
        None => 0,
        Some((two, partial)) => {
            let mut pairs = two.pairs(q > 0);
            packed(pairs.find(|&(_, one, other)| dead(&partial, one, other)).map(|(pair, ..)| pair))
        }
    }
}

/// Whether f's cube has a literal on an unplaced input.
fn unplaced(partial: &Partial, of_f: Cube) -> bool {
    (partial.placed.len()..partial.n).any(|i| asks(of_f, i).is_some())
}

/// Whether g's cube has a literal on an unused input.
fn unused(partial: &Partial, of_g: Cube) -> bool {
    (0..partial.n).any(|j| !partial.uses(j) && asks(of_g, j).is_some())
}

fn separation() -> Vec<Mistake> {
    vec![
        (
            "j applied the wrong way round",
            |f, g, w, q| {
                first(f, g, w, q, |partial, of_f, of_g| {
                    // The byte at place i says which input of f serves input i of g.
                    !partial.completions().iter().any(|inputs| {
                        inputs.placed.iter().enumerate().any(|(i, choice)| {
                            let of_i = asks(of_f, choice.j).map(|side| side != choice.inverted);
                            of_i.is_some_and(|side| asks(of_g, i) == Some(!side))
                        })
                    })
                })
            },
            sweeps::every_prefix,
        ),
        (
            "inverted read as plain",
            |f, g, w, q| {
                first(f, g, w, q, |partial, of_f, of_g| {
                    let plain = |choice: &Choice| Choice { inverted: false, ..*choice };
                    let placed = partial.placed.iter().map(plain).collect();
                    dead(&Partial { n: partial.n, placed }.completions(), of_f, of_g)
                })
            },
            sweeps::every_prefix,
        ),
        (
            "dead as soon as the placed literals fail to separate",
            |f, g, w, q| first(f, g, w, q, |at, of_f, of_g| !separates(at, of_f, of_g)),
            sweeps::every_prefix,
        ),
        (
            "dead only if neither cube has a literal left",
            |f, g, w, q| {
                first(f, g, w, q, |at, of_f, of_g| {
                    !separates(at, of_f, of_g) && !unplaced(at, of_f) && !unused(at, of_g)
                })
            },
            sweeps::single_cubes,
        ),
        (
            "only the cube of f looked at for literals left",
            |f, g, w, q| {
                first(f, g, w, q, |at, of_f, of_g| {
                    !separates(at, of_f, of_g) && !unplaced(at, of_f)
                })
            },
            sweeps::single_cubes,
        ),
        (
            "only the cube of g looked at for literals left",
            |f, g, w, q| {
                first(f, g, w, q, |at, of_f, of_g| !separates(at, of_f, of_g) && !unused(at, of_g))
            },
            sweeps::single_cubes,
        ),
        (
            "the unplaced inputs taken for the unused ones",
            |f, g, w, q| {
                first(f, g, w, q, |at, of_f, of_g| {
                    let left = unplaced(at, of_f) && unplaced(at, of_g);
                    !separates(at, of_f, of_g) && !left
                })
            },
            sweeps::single_cubes,
        ),
        (
            "open read as off",
            |f, g, w, q| match asked(f, g, w) {
                Some((two, inputs)) if inputs.is_whole() => {
                    let Tables { f: of_f, g: of_g } = Tables::of(&two);
                    let closed = |table: Table| Table {
                        off: table.on.iter().map(|on| !on).collect(),
                        on: table.on,
                    };
                    let tables = Tables { f: closed(of_f), g: closed(of_g) };
                    match find_in(&two, w, q) {
                        // Whichever pair it names, there is none.
                        Found::Nothing if !tables.agree(q > 0, &inputs) => {
                            packed(Some(Pair { s: 0, u: 0, v: 0 }))
                        }
                        found => found.packed(),
                    }
                }
                _ => RIGHT(f, g, w, q),
            },
            sweeps::whole_wirings,
        ),
    ]
}

// ---- Which dead pair is told ----

/// The pair that is picked from all dead pairs, which come in order.
fn picked(f: &[u8], g: &[u8], w: &[u8], q: u8, pick: fn(&[Pair]) -> Option<Pair>) -> u64 {
    match asked(f, g, w) {
        None => 0,
        Some((two, partial)) => {
            let completions = partial.completions();
            let pairs = two.pairs(q > 0).filter(|&(_, one, other)| dead(&completions, one, other));
            packed(pick(&pairs.map(|(pair, ..)| pair).collect::<Vec<Pair>>()))
        }
    }
}

fn order() -> Vec<Mistake> {
    vec![
        (
            "the second dead pair",
            |f, g, w, q| picked(f, g, w, q, |all| all.get(1).or(all.first()).copied()),
            sweeps::every_prefix,
        ),
        (
            "the last dead pair",
            |f, g, w, q| picked(f, g, w, q, |all| all.last().copied()),
            sweeps::every_prefix,
        ),
        (
            "the off list before the on list",
            |f, g, w, q| {
                picked(f, g, w, q, |all| {
                    all.iter().copied().min_by_key(|at| (1 - at.s, at.u, at.v))
                })
            },
            sweeps::every_prefix,
        ),
        (
            "v before u",
            |f, g, w, q| {
                picked(f, g, w, q, |all| all.iter().copied().min_by_key(|at| (at.s, at.v, at.u)))
            },
            sweeps::every_prefix,
        ),
        (
            "u and v changed places in the answer",
            |f, g, w, q| {
                picked(f, g, w, q, |all| all.first().map(|at| Pair { u: at.v, v: at.u, ..*at }))
            },
            sweeps::every_prefix,
        ),
        (
            "the last cube of a list of 64 left out",
            |f, g, w, q| {
                picked(f, g, w, q, |all| all.iter().copied().find(|at| at.u < 63 && at.v < 63))
            },
            sweeps::late_pairs,
        ),
    ]
}

// ---- The phase ----

fn phase() -> Vec<Mistake> {
    vec![
        (
            "q = 1 tested on against off",
            |f, g, w, _| find(f, g, w, 0).packed(),
            sweeps::every_prefix,
        ),
        (
            "s turned round under q = 1",
            |f, g, w, q| match find(f, g, w, q) {
                Found::Pair(at) if q > 0 => packed(Some(Pair { s: 1 - at.s, ..at })),
                found => found.packed(),
            },
            sweeps::every_prefix,
        ),
        (
            "q above 1 counts as 0",
            |f, g, w, q| find(f, g, w, (q == 1) as u8).packed(),
            sweeps::every_prefix,
        ),
        (
            "q above 1 refused",
            |f, g, w, q| if q > 1 { 0 } else { RIGHT(f, g, w, q) },
            sweeps::every_prefix,
        ),
        (
            "only the last bit of q looked at",
            |f, g, w, q| find(f, g, w, q % 2).packed(),
            sweeps::every_prefix,
        ),
    ]
}

// ---- Refusals ----

/// What is found, but nothing where a wiring is refused for a reason and looks so.
fn let_through(f: &[u8], g: &[u8], w: &[u8], q: u8, lax: fn(BadWiring, &[u8], u8) -> bool) -> u64 {
    match find(f, g, w, q) {
        Found::BadWiring(why) if lax(why, w, f[2]) => Found::Nothing.packed(),
        found => found.packed(),
    }
}

fn refusals() -> Vec<Mistake> {
    vec![
        (
            "one input of g both plain and inverted",
            |f, g, w, q| {
                let_through(f, g, w, q, |why, w, _| {
                    let twice = |at: usize| w[..at].contains(&w[at]);
                    why == BadWiring::UsedTwice && !(0..w.len()).any(twice)
                })
            },
            sweeps::bad_wirings,
        ),
        (
            "input n of g, inverted",
            |f, g, w, q| {
                let_through(f, g, w, q, |why, w, n| {
                    why == BadWiring::BadByte && w.contains(&(16 + n))
                })
            },
            sweeps::bad_wirings,
        ),
        (
            "bytes from 32 upward read like those below",
            |f, g, w, q| {
                let low: Vec<u8> = w.iter().map(|byte| byte % 32).collect();
                RIGHT(f, g, &low, q)
            },
            sweeps::bad_wirings,
        ),
        (
            "bytes after the wiring",
            |f, g, w, q| let_through(f, g, w, q, |why, _, _| why == BadWiring::TooLong),
            sweeps::bad_wirings,
        ),
        (
            "the last byte of a whole wiring not tested",
            |f, g, w, q| {
                let_through(f, g, w, q, |why, w, n| {
                    let good = Partial::from_bytes(&w[..w.len() - 1], n as usize).is_ok();
                    why == BadWiring::UsedTwice && w.len() == n as usize && good
                })
            },
            sweeps::bad_wirings,
        ),
        (
            "functions that differ in n",
            |f, g, w, q| match find(f, g, w, q) {
                Found::BadRecords(9) => Found::Nothing.packed(),
                found => found.packed(),
            },
            sweeps::bad_records,
        ),
        (
            "a refused g",
            |f, g, w, q| match find(f, g, w, q) {
                Found::BadRecords(1..=8) if function(f, 1).is_ok() => Found::Nothing.packed(),
                found => found.packed(),
            },
            sweeps::bad_records,
        ),
        (
            "an f whose lists share a pattern",
            |f, g, w, q| match find(f, g, w, q) {
                Found::BadRecords(7) if function(g, 2).is_ok() => Found::Nothing.packed(),
                found => found.packed(),
            },
            sweeps::bad_records,
        ),
    ]
}
