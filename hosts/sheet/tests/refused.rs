//! A page is refused where a figure of the proved programs differs from what is counted, and names that cannot be are refused.

mod told;

use model::{operation as op, record};
use sheet::event::{promised, Event};
use sheet::names::Names;
use sheet::proved::Proved;
use told::{create, event, printed, recording, ticks, two_lanes};

/// What is said of 40 ticks of two lanes, with a part of what is printed replaced.
fn refused(program: &str, old: &str, new: &str) -> String {
    let recording = recording(&two_lanes(40));
    let (mut trace, mut report) = printed(&recording);
    let text = if program == "trace" {
        &mut trace
    } else {
        &mut report
    };
    assert!(text.contains(old), "{program} prints no {old:?}");
    *text = text.replace(old, new);
    let event =
        Proved::read(&recording, &trace, &report).and_then(|proved| Event::of(&recording, &proved));
    event
        .err()
        .unwrap_or_else(|| panic!("{program} with {new:?} in the place of {old:?} makes a page"))
}

#[test]
fn a_figure_that_differs_is_refused() {
    for (program, old, new, said) in [
        // a code, a value and the thread that runs
        (
            "trace",
            "\n3 0 0 1\n",
            "\n3 -5 0 1\n",
            "answers request 3 with '-5 0 1' and the sheet with '0 0 1'",
        ),
        (
            "trace",
            "\n3 0 0 1\n",
            "\n3 0 7 1\n",
            "answers request 3 with '0 7 1'",
        ),
        (
            "trace",
            "\n3 0 0 1\n",
            "\n3 0 0 2\n",
            "answers request 3 with '0 0 2'",
        ),
        (
            "trace",
            "\n41 0 0 2\n",
            "\n41 0 0 1\n",
            "answers request 41",
        ),
        // the ticks and the lag of a lane, a thread that is not there, and one that is left out
        (
            "report",
            "1 24 64\n",
            "1 23 64\n",
            "says '1 23 64' of thread 1 and the sheet counts '1 24 64'",
        ),
        (
            "report",
            "1 24 64\n",
            "1 24 0\n",
            "says '1 24 0' of thread 1",
        ),
        (
            "report",
            "2 16 -64\n",
            "2 16 -64\n3 0 0\n",
            "says '3 0 0' of thread 3 and the sheet counts ''",
        ),
        (
            "report",
            "2 16 -64\n",
            "",
            "says '' of thread 2 and the sheet counts '2 16 -64'",
        ),
        // lines that are none
        (
            "trace",
            "\n3 0 0 1\n",
            "\n3 0 0 1 1\n",
            "prints a line that is not expected: '3 0 0 1 1'",
        ),
        (
            "trace",
            "\n3 0 0 1\n",
            "\n4 0 0 1\n",
            "prints a line that is not expected: '4 0 0 1'",
        ),
        (
            "trace",
            "\n41 0 0 2\n",
            "\n",
            "has 42 requests, and the trace program answers 41",
        ),
        (
            "report",
            "1 24 64\n",
            "1 24\n",
            "prints a line that is not expected: '1 24'",
        ),
        (
            "report",
            "0 0 0\n",
            "stopped\n0 0 0\n",
            "prints a line that is not expected: 'stopped'",
        ),
    ] {
        let fault = refused(program, old, new);
        assert!(fault.contains(said), "{program}, {new:?}: {fault}");
        assert_eq!(fault.lines().count(), 1, "one line: {fault}");
    }
}

/// The rule of the incident does not keep what is proved, so that its counts are those of a wrong kernel.
#[test]
fn a_run_that_does_not_keep_what_is_proved_is_refused() {
    let cut = [&create(3, 9, 1)[..], &record(op::DELETE, 3, 0, 0, 0)].concat();
    // four times a cut into the left lane's turn, and then a turn of the right lane
    let cuts = [cut, ticks(8)].concat().repeat(4);
    let event = event(&[two_lanes(0), cuts].concat());
    assert_eq!(promised(&event.ruled), Ok(()));
    let fault = promised(&event.incident).expect_err("the left lane gets nothing");
    let said = "what is proved of every run does not hold of rank 5 from request 2 to 42";
    assert!(fault.starts_with(said), "{fault}");
    assert_eq!(event.incident.rows[1].total, 0);
}

#[test]
fn names_are_read() {
    let names = Names::read("1=left lane (odd seats),2= right, of two ,12=größe=3").expect("names");
    assert_eq!(names.of(1), "left lane (odd seats)");
    assert_eq!(names.of(2), "right, of two");
    assert_eq!(names.of(12), "größe=3");
    assert_eq!(names.of(3), "thread 3");
    assert_eq!(names.of(0), "Init");
}

#[test]
fn names_that_cannot_be_are_refused() {
    for (text, said) in [
        ("", "'' is no name of a thread"),
        ("left lane", "'left lane' is no name of a thread"),
        ("one=left lane", "'one=left lane' is no name of a thread"),
        ("1=left,1=right", "thread 1 is named twice"),
        ("16=left", "accepted are 0 to 15"),
        ("99999999999999999999=left", "accepted are 0 to 15"),
        ("1=", "the name of thread 1 is empty"),
        ("1=a\nb", "has a character that can't be shown"),
    ] {
        let fault = Names::read(text)
            .err()
            .unwrap_or_else(|| panic!("{text:?} is taken"));
        assert!(fault.contains(said), "{text:?}: {fault}");
    }
    let long = format!("1={}", "x".repeat(61));
    assert!(Names::read(&long).is_err(), "61 characters are taken");
}
