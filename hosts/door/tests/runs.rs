//! Over a million random steps, from fresh and from random sound tables that no run need reach,
//! each held to the model byte for byte, the ready word among them, with enough of every sort of
//! step.

use door::{random_run, Coverage, Hold};
use model::{fresh, random_sound, Rng};

/// Fails with all that was met too seldom, and with codes that document 01 does not list.
fn check(coverage: &Coverage, times: u64, unreached: &[(u8, i32)]) {
    let lacks = coverage.lacks(times, unreached);
    assert!(lacks.is_empty(), "met too seldom: {lacks:#?}\n{coverage}");
    let strays = coverage.strays();
    assert!(strays.is_empty(), "codes not of document 01: {strays:?}");
}

/// Runs of 400 steps.
fn from_fresh() -> (Coverage, usize) {
    let (mut coverage, mut steps) = (Coverage::default(), 0);
    for seed in 0..1_500 {
        let mut hold = Hold::new(&format!("a run from fresh, seed {seed}"));
        let mut rng = Rng::new(seed);
        random_run(&mut hold, &mut coverage, &mut rng, &mut fresh(), 400);
        steps += hold.finish();
    }
    (coverage, steps)
}

/// Runs of 5 steps.
fn from_random_sound_tables() -> (Coverage, usize) {
    let (mut coverage, mut steps) = (Coverage::default(), 0);
    for seed in 1_000_000..1_000_500 {
        let mut hold = Hold::new(&format!("random sound tables, seed {seed}"));
        let mut rng = Rng::new(seed);
        for _ in 0..200 {
            let mut table = random_sound(&mut rng);
            random_run(&mut hold, &mut coverage, &mut rng, &mut table, 5);
        }
        steps += hold.finish();
    }
    (coverage, steps)
}

#[test]
fn a_million_random_steps() {
    let (mut coverage, steps) = from_fresh();
    assert_eq!(steps, 600_000);
    // From fresh, runs of this length do not reach the deepest lock.
    check(&coverage, 50, &[(17, -5)]);
    let (other, steps) = from_random_sound_tables();
    assert_eq!(steps, 500_000);
    coverage.add(other);
    check(&coverage, 200, &[]);
}
