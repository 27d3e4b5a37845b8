//! The sheet's counting, held against a naive recount. That one is written from the definitions (crates/fairness/specs/Run.antt and
//! Doors.antt, crates/promises/specs/Demand3.antt and Incident.antt): it does every tick by itself and looks at all pairs of moments.

mod agree;
mod events;
mod naive;
mod reached;
mod rows;
mod scenes;

use std::fs;

use agree::agree;
use events::{events, ready_set, running};
use model::{
    fresh, operation as op, random_trace, record, report, trace, word, write, Rng, RECORD,
};
use picture::incident::{Claim, Incident, Rule};
use picture::{source, top};
use reached::Reached;
use rows::Recount;
use scenes::scene;
use sheet::counts::Counts;
use sheet::event::Event;
use sheet::proved::Proved;
use sheet::recording::Recording;

/// The sheet's event of a recording, held against what the model prints in the place of the proved programs.
fn event(case: &str, bytes: &[u8]) -> Event {
    let recording = Recording::read(bytes).expect("memory can be read");
    let text = |printed: Vec<u8>| String::from_utf8(printed).expect("it is text");
    let (trace, report) = (
        text(trace(&recording.bytes)),
        text(report(&recording.bytes)),
    );
    let proved = Proved::read(&recording, &trace, &report);
    let event = proved.and_then(|proved| Event::of(&recording, &proved));
    event.unwrap_or_else(|fault| panic!("{case}: {fault}"))
}

/// Recounts a recording by both rules, and gives both recounts.
fn recount(case: &str, bytes: &[u8]) -> [Recount; 2] {
    let event = event(case, bytes);
    let requests = bytes.len() / RECORD;
    let run = events(bytes, Rule::Rules);
    end_agrees(case, &run, &event);
    let ruled = Recount::of(&run, requests);
    is_promised(case, &ruled);
    agree(&format!("{case}, by the rules"), &ruled, &event.ruled);
    drop(run);
    let incident = Recount::of(&events(bytes, Rule::Incident), requests);
    agree(
        &format!("{case}, by the incident"),
        &incident,
        &event.incident,
    );
    [ruled, incident]
}

/// Demand 3, Never far and Never late hold of every part of every stretch.
fn is_promised(case: &str, ruled: &Recount) {
    for stretch in &ruled.stretches {
        let (rank, first) = (stretch.rank, stretch.first);
        let holds = stretch.is_fair() && stretch.is_near() && stretch.uneven() == 0;
        assert!(
            holds,
            "{case}: what is promised does not hold of rank {rank} from request {first} on"
        );
    }
}

/// The requests that were refused are as many, and the event ends with the same threads ready and the same one running.
fn end_agrees(case: &str, run: &[events::Event], event: &Event) {
    let refused = run.iter().filter(|one| one.is_refused()).count();
    assert_eq!(event.refused, refused, "{case}: the refused requests");
    let end = run.last().map_or(fresh(), |last| *last.after);
    assert_eq!(
        event.end.running,
        running(&end),
        "{case}: who runs at the end"
    );
    for (rank, &set) in event.end.sets.iter().enumerate() {
        let is_in = std::array::from_fn(|i| set >> i & 1 == 1);
        assert_eq!(
            ready_set(rank, &end),
            is_in,
            "{case}: rank {rank} at the end"
        );
    }
}

/// The recording without long sleeps, which take the recount long.
fn of_few_ticks(bytes: &[u8], most: u32) -> Vec<u8> {
    let short = |asked: &[u8]| match asked[0] == op::TICKS
        && (most + 1..100_000).contains(&word(asked, 4))
    {
        true => record(op::TICKS, 0, 0, word(asked, 4) % most + 1, 0).to_vec(),
        false => asked.to_vec(),
    };
    bytes.chunks_exact(RECORD).flat_map(short).collect()
}

/// Some of them have more stretches than the sheet keeps.
#[test]
fn random_recordings_are_counted_alike() {
    let mut reached = Reached::default();
    for seed in 0..300 {
        let mut rng = Rng::new(810_000 + seed);
        let records = rng.between(20, 400) as usize;
        let most = rng.pick(&[40, 400, 1_500]);
        let bytes = of_few_ticks(&random_trace(&mut rng, records), most);
        let [ruled, incident] = recount(&format!("random recording {seed}"), &bytes);
        reached.add(&ruled, &incident);
    }
    println!("{reached:?}");
    assert!(reached.more_than_kept >= 30, "{reached:?}");
}

/// The scenes reach what they are for; so many of each there are at the least.
#[test]
fn random_scenes_are_counted_alike() {
    let mut reached = Reached::default();
    for seed in 0..400 {
        let mut rng = Rng::new(820_000 + seed);
        let records = rng.between(20, 400) as usize;
        let ticks = rng.pick(&[300, 720, 1_440, 3_000, 5_000, 7_200]);
        let bytes = scene(&mut rng, records, ticks);
        let [ruled, incident] = recount(&format!("random scene {seed}"), &bytes);
        reached.add(&ruled, &incident);
    }
    println!("{reached:?}");
    reached.is_enough();
}

#[test]
fn the_examples_are_counted_alike() {
    let files = fs::read_dir(top().join("examples")).expect("the folder is there");
    let mut recordings = 0;
    for path in files.map(|file| file.expect("the folder can be read").path()) {
        let bytes = fs::read(&path).expect("the file can be read");
        let bytes = match path.extension().and_then(|is| is.to_str()) {
            Some("trace") => bytes,
            Some("listing") => write(&bytes).records,
            _ => continue,
        };
        recount(&path.display().to_string(), &bytes);
        recordings += 1;
    }
    assert!(recordings >= 9, "there are {recordings} examples");
}

/// What the sheet charges to the two lanes in the first requests of a claim's run, behind those that make its table.
fn lanes_get(incident: &Incident, claim: &Claim, requests: usize) -> [u64; 2] {
    let bytes = [&incident.lanes[..], &claim.requests[..requests]]
        .concat()
        .concat();
    recount(&claim.name, &bytes);
    let event = event(&claim.name, &bytes);
    let counts = match claim.rule {
        Rule::Rules => event.ruled,
        Rule::Incident => event.incident,
    };
    [incident.left, incident.right].map(|lane| counts.accounts[lane])
}

#[test]
fn the_lanes_get_what_the_claims_of_the_incident_state() {
    let source = source().expect("the file is there");
    let incident = Incident::read(&source).expect("it is read");
    assert_eq!(incident.claims.len(), 6);
    for claim in &incident.claims {
        let before = lanes_get(&incident, claim, claim.from);
        let after = lanes_get(&incident, claim, claim.from + claim.steps);
        let stated = [claim.left, claim.right].map(|ticks| ticks as u64);
        assert_eq!(
            [after[0] - before[0], after[1] - before[1]],
            stated,
            "{}",
            claim.name
        );
    }
}

/// The recording of a listing, recounted and counted by the sheet by the rules.
fn listed(listing: &str) -> Counts {
    let written = write(listing.as_bytes());
    assert_eq!(written.bad, None);
    recount("a listing", &written.records);
    event("a listing", &written.records).ruled
}

/// Thread 1 has a tick left of its turn of 2 when thread 2 comes, so that the ticks go 1 2 1 1 2 1: thread 2 waits for two ticks between
/// its turns, and in each of the two rounds for one at a time. The sleep under lock makes the bands so wide that both are in one.
#[test]
fn a_wait_from_one_round_to_the_next_is_counted_whole() {
    let counts = listed("1 1 5 2\n19\n1 2 5 1\n21 6\n17\n21 5034\n");
    let stretch = &counts.stretches.kept[0];
    assert_eq!(
        (counts.bands.width, stretch.ticks, stretch.rounds),
        (8, 6, 2)
    );
    assert_eq!(stretch.members[1].got().longest, 2);
}

/// The first tick of request 3 ends thread 1's delay, and the other two are in a stretch.
#[test]
fn a_stretch_that_begins_between_ticks_at_once_begins_in_their_request() {
    let counts = listed("1 1 0 1\n0\n6 1\n21 3\n");
    let stretch = &counts.stretches.kept[0];
    assert_eq!((stretch.first, stretch.last, stretch.ticks), (3, 4, 2));
}

/// The second tick of request 5 ends thread 1's delay and the fourth one thread 2's: the third is in a stretch of Init and thread 1, and those
/// behind the fourth are in one of all three.
#[test]
fn a_stretch_may_begin_and_end_between_ticks_at_once() {
    let counts = listed("1 1 0 1\n1 2 0 1\n0\n6 2\n6 4\n21 9\n");
    let kept = &counts.stretches.kept;
    let requests: Vec<(usize, usize, u64)> = kept
        .iter()
        .map(|stretch| (stretch.first, stretch.last, stretch.ticks))
        .collect();
    assert_eq!(requests, [(5, 5, 1), (5, 6, 5)]);
    assert!(kept[0].ending.is_inside);
}

/// Thread 1's wait for mail fails at the tick, and request 3 asks for that outcome, which is −5.
#[test]
fn an_outcome_of_a_failed_wait_is_no_refusal() {
    let written = write(b"1 1 5 1\n10 1\n19\n20 1\n");
    recount("an outcome", &written.records);
    assert_eq!(event("an outcome", &written.records).refused, 0);
}
