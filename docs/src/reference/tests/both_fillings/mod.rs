//! One call made with both fillings, for `tests/agreement.rs`, `tests/band.rs`,
//! `tests/band_first.rs`, `tests/marks.rs` and `tests/stray.rs`.

use reference::damage::{Call, Outcome};
use reference::fill::fill;
use reference::plain;
use reference::random::Random;
use reference::state::{is_move, ON_SKIN};

/// Makes the call with both fillings over the same noise.
pub fn run_both(call: &Call, seed: u64) -> Outcome {
    let fast = call.run(fill, &mut Random::new(seed));
    let slow = call.run(plain::fill, &mut Random::new(seed));
    assert_eq!(fast.filled, slow.filled, "seed {seed}");
    assert!(fast == slow, "tables differ, seed {seed}");
    check_untouched(call, &fast, seed);
    fast
}

/// Entries that no row or code belongs in still hold the noise.
fn check_untouched(call: &Call, outcome: &Outcome, seed: u64) {
    let (state, rows) = call.noise(&mut Random::new(seed));
    let filled = outcome.filled;
    match filled.number {
        0 => {
            let behind = 4 * filled.rows as usize;
            assert_eq!(rows[behind..], outcome.rows[behind..]);
        }
        10 => assert_eq!(rows, outcome.rows),
        _ => {
            assert_eq!(rows, outcome.rows);
            assert_eq!(state, outcome.state);
            assert_eq!((filled.rows, filled.moved), (0, 0));
        }
    }
    if filled.number == 0 || filled.number == 10 {
        let moves = outcome.state.iter().filter(|&&code| is_move(code)).count();
        assert_eq!((filled.moved, filled.place), (moves as u64, 0));
        assert!(outcome.state.iter().all(|&code| code <= ON_SKIN));
    }
}

/// Fills into an exact table, a longer and a shorter one; answers the first.
pub fn check_valid(call: &mut Call, random: &mut Random) -> Outcome {
    let exact = call.row_length;
    let outcome = run_both(call, random.bits());
    assert_eq!(outcome.filled.number, 0);
    assert_eq!(4 * outcome.filled.rows as usize, exact);
    call.row_length = exact + random.pick(&[1, 3, 4, 17]);
    assert_eq!(run_both(call, random.bits()).filled, outcome.filled);
    if exact > 0 {
        call.row_length = exact - 1;
        let short = run_both(call, random.bits());
        assert_eq!(short.filled.number, 10);
        assert_eq!(short.filled.rows, outcome.filled.rows);
        assert_eq!(short.filled.moved, outcome.filled.moved);
        assert_eq!(short.state, outcome.state);
    }
    outcome
}
