//! The picture in docs/ is the one that Incident.antt gives, every figure that the file states is what the model counts, and a file of another
//! shape is refused.

use std::fs;

use picture::incident::{Incident, Rule};
use picture::run::run;
use picture::{drawn, picture, source, top, PICTURE};

#[test]
fn the_picture_is_drawn_from_the_proved_runs() {
    let is = fs::read_to_string(top().join(PICTURE)).expect("the picture is there");
    let ought = drawn().unwrap_or_else(|fault| panic!("{fault}"));
    assert!(
        is == ought,
        "{PICTURE} is not what hosts/picture draws from Incident.antt: run hosts/picture/draw --write"
    );
}

#[test]
fn every_figure_that_the_file_states_is_what_the_model_counts() {
    let incident = Incident::read(&source().expect("the file is there")).expect("it is read");
    let stated: Vec<(&str, Rule, usize, usize)> = incident
        .claims
        .iter()
        .map(|claim| (claim.name.as_str(), claim.rule, claim.left, claim.right))
        .collect();
    let wanted = [
        ("behind", Rule::Incident, 4, 8),
        ("nothing", Rule::Incident, 0, 8),
        ("round", Rule::Incident, 1, 3),
        ("ruled", Rule::Rules, 6, 6),
        ("ruled_at_once", Rule::Rules, 4, 4),
        ("ruled_round", Rule::Rules, 2, 2),
    ];
    assert_eq!(stated, wanted);
    for claim in &incident.claims {
        run(&incident, claim).unwrap_or_else(|fault| panic!("{fault}"));
    }
}

/// What is said of the file with a part of it replaced.
fn refused(old: &str, new: &str) -> String {
    let source = source().expect("the file is there");
    assert!(source.contains(old), "the file has {old}");
    picture(&source.replace(old, new)).expect_err("the file has another shape")
}

#[test]
fn a_file_of_another_shape_is_refused_with_what_differs() {
    for (old, new, said) in [
        // a figure, a rule and a count that are no longer those of the runs
        (
            "≡ lanes_get 12 4 8",
            "≡ lanes_get 12 5 7",
            "states (12, 5, 7)",
        ),
        (
            "≡ lanes_get 12 6 6",
            "≡ lanes_get 12 7 5",
            "states (12, 7, 5)",
        ),
        (
            "(λ t. t)",
            "(with_counter 1)",
            "`sends_back` is not the one",
        ),
        ("figures d 5", "figures d 6", "`counted` is not the one"),
        // requests that it cannot read
        ("Create left 5 2", "Build left 5 2", "where `Build` stands"),
        ("cut = Post", "cut = n Post", "where `n` stands"),
        (
            "(cut_after_tick 4) 0 20",
            "(cut_after_tick 4) 0",
            "a number is expected where `≡` stands",
        ),
        // a lane that is not in the rank
        (
            "Create right 5 2",
            "Create right 4 2",
            "others than the lanes are ready at rank 5: [1]",
        ),
        // names that are gone
        ("pub behind", "pub late", "no field `behind`"),
        (
            "record OnlyTheOddSeats",
            "record Seats",
            "there is no `pub record OnlyTheOddSeats",
        ),
        ("cutter = 3", "knife = 3", "nothing defines `cutter`"),
    ] {
        let fault = refused(old, new);
        assert!(fault.contains(said), "{old} as {new}: {fault}");
    }
}
