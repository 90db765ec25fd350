//! A few calls through the wrapper. The comparison with the evaluator makes many.

#![cfg(not(library_missing))]

use cerealbank::{check, run, Answer, RunAnswer, WORK};

/// The fixpoint at Int whose body is its own variable: Int, variable 0, the fixpoint.
const FIXPOINT: [u8; 32] = [1, 0, 0, 0, 0, 0, 0, 0, 16, 0, 0, 0, 0, 0, 0, 0, 23, 0, 1, 0, 0, 0, 0, 0, 0xF0, 1, 3, 0, 2, 0, 0, 0];

#[test]
fn the_fixpoint_is_checked_and_run() {
    let mut work = vec![9; WORK];
    assert_eq!(check(&FIXPOINT, &mut work), Answer::Accepted { size: 1 });
    assert_eq!(work[..16], [1, 0, 0, 0, 0, 0, 0, 0, 0xF0, 1, 1, 0, 0, 0, 0, 0]);
    assert!(work[16..].iter().all(|&byte| byte == 0));
    assert_eq!(run(&FIXPOINT, &mut work, 0), RunAnswer::Spent { steps: 0, mark: 3 });
    assert_eq!(run(&FIXPOINT, &mut work, u32::MAX), RunAnswer::Room { steps: 2_046, mark: 4_095 });
    assert_eq!(check(&[], &mut work), Answer::Refused { number: 2, cell: 0 });
    assert!(work.iter().all(|&byte| byte == 0));
}
