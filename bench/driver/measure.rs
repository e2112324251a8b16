//! Runs the sides of a part on the same cases and says what each took.

use std::time::Instant;

/// One side of a comparison. Both functions make one call of the function named, which
/// stands by itself (never inlined) so that callgrind counts what lies in it.
pub(crate) struct Side<C> {
    pub(crate) name: &'static str,
    /// A call whose result is thrown away.
    pub(crate) run: fn(&mut C),
    /// A call and its result as numbers, the same for every side.
    pub(crate) answer: fn(&mut C) -> Vec<u64>,
}

/// The first round is the warm one: its answers are compared, and its calls are counted too.
pub(crate) fn measure<C>(sides: &[Side<C>], cases: &mut [C], rounds: usize) {
    compare(sides, cases);
    for side in sides {
        let best = (0..rounds).map(|_| round(side, cases)).min();
        let calls = cases.len() * (rounds + 1);
        let nanoseconds = best.unwrap_or(0) as f64 / cases.len() as f64;
        println!("{} {calls} {nanoseconds:.1}", side.name);
    }
}

fn compare<C>(sides: &[Side<C>], cases: &mut [C]) {
    for (number, case) in cases.iter_mut().enumerate() {
        let first = (sides[0].answer)(case);
        for side in &sides[1..] {
            let answer = (side.answer)(case);
            assert!(
                answer == first,
                "case {number}: {} says {answer:?}, {} says {first:?}",
                side.name,
                sides[0].name
            );
        }
    }
}

/// The nanoseconds that a round over all cases takes.
fn round<C>(side: &Side<C>, cases: &mut [C]) -> u128 {
    let start = Instant::now();
    for case in cases {
        (side.run)(case);
    }
    start.elapsed().as_nanos()
}
