//! The page: it is whole by itself, texts are escaped, it says so where there is nothing to show, and it stays small.

mod told;

use std::fs;

use model::{operation as op, random_trace, record, Rng, MOST_RECORDS};
use programs::top;
use sheet::about::About;
use sheet::names::Names;
use sheet::text::signed_quotient;
use sheet::theorems::THEOREMS;
use told::{about, create, page_of, plain_page, ticks, two_lanes};

/// A page of an event of up to 1,000,000 requests has fewer bytes than these.
const MOST_BYTES: usize = 2_000_000;

#[test]
fn nothing_is_loaded_from_elsewhere() {
    let page = plain_page(&two_lanes(100));
    for outside in [
        "http:", "https:", "//", "<script", "<link", "<img", "<iframe", "src=", "href=", "@import",
        "url(",
    ] {
        assert!(!page.contains(outside), "the page has {outside}");
    }
}

#[test]
fn texts_are_escaped() {
    let names = Names::read(r#"1=<i>left & "odd"</i>,2='right'"#).expect("names");
    let about = About {
        file: Some(String::from("<b>.trace")),
        revision: String::from("a<b"),
        ..about()
    };
    let page = page_of(&two_lanes(20), &names, &about);
    for raw in ["<i>", "<b>.trace", "a<b", "'right'"] {
        assert!(!page.contains(raw), "the page has {raw}");
    }
    for escaped in [
        "&lt;i&gt;left &amp; &quot;odd&quot;&lt;/i&gt;",
        "&#39;right&#39;",
        "&lt;b&gt;.trace",
        "a&lt;b",
    ] {
        assert!(page.contains(escaped), "the page has no {escaped}");
    }
}

#[test]
fn the_answer_has_two_sentences_for_the_lanes() {
    let names = Names::read("1=left lane,2=right lane").expect("names");
    let page = page_of(&two_lanes(40), &names, &about());
    let answer = "Of the ticks charged to rank 5 while both are ready, <b>left lane</b> and <b>right lane</b> are each promised half, 8 of 16: \
                  of the 40 ticks in this recording they got 24 and 16. At no moment was either of them more than 4 ticks from its share \
                  (proved: at most 4), and neither waited for more than 8 ticks of their rank (proved: at most 8).";
    assert!(page.contains(answer), "{page}");
}

#[test]
fn a_page_of_nothing_says_so() {
    let refused = record(op::GONE, 0, 0, 0, 0).repeat(5);
    let untimed = [create(1, 5, 8), create(2, 5, 8)].concat();
    let alone = [create(1, 5, 8).to_vec(), ticks(9)].concat();
    for (bytes, said) in [
        (refused, "All 5 requests of this recording were refused."),
        (
            untimed,
            "In the 2 requests of this recording no tick was charged to anybody.",
        ),
        (
            alone,
            "No two threads were ready at the same rank while a tick was charged to it.",
        ),
        (
            [two_lanes(1), vec![1, 2, 3]].concat(),
            "Its last 3 bytes are no whole request and are left out.",
        ),
        (
            [two_lanes(1), vec![1, 2, 3]].concat(),
            "SHA-256 of the first 36 bytes",
        ),
    ] {
        let page = plain_page(&bytes);
        assert!(page.contains(said), "no '{said}' in {page}");
    }
}

#[test]
fn a_lock_and_a_break_in_are_shown() {
    let lock = record(op::LOCK, 0, 0, 0, 0);
    let unlock = record(op::UNLOCK, 0, 0, 0, 0);
    let cut = [
        &create(3, 9, 2)[..],
        &ticks(2),
        &record(op::DELETE, 3, 0, 0, 0),
    ]
    .concat();
    let page = plain_page(
        &[
            two_lanes(3),
            cut,
            lock.to_vec(),
            ticks(4),
            unlock.to_vec(),
            ticks(9),
        ]
        .concat(),
    );
    assert!(page.contains("scheduler locked"), "{page}");
    assert!(page.contains("4 ticks, charged to nobody"), "{page}");
    assert!(page.contains("broken into 1 time"), "{page}");
    assert!(page.contains("not in use at the end"), "{page}");
}

/// The page has these texts in this order.
fn in_order(page: &str, texts: &[&str]) {
    let mut from = 0;
    for text in texts {
        let at = page[from..].find(text);
        from += at.unwrap_or_else(|| panic!("no '{text}' behind the ones before it in {page}"));
    }
}

/// Thread 1 is alone for 90 ticks and shares its rank for 20; the turn that is set makes two sets of these.
#[test]
fn what_a_thread_shares_comes_before_where_it_is_alone() {
    let set = record(op::SET_TURN, 2, 0, 4, 0);
    let bytes = [
        create(1, 5, 8).to_vec(),
        ticks(90),
        create(2, 5, 8).to_vec(),
        ticks(14),
        set.to_vec(),
        ticks(6),
    ];
    let page = plain_page(&bytes.concat());
    in_order(
        &page,
        &[
            r#"<p class="answer">Of the ticks charged to rank 5 while both are ready"#,
            "of the 14 ticks in one stretch of this recording, in which the promise's terms held, they got",
            "Rank 5 was shared in 1 other way too",
            r#"<tbody data-thread="1">"#,
            "8 of 16",
            "8 of 12",
            "alone",
            r#"<tbody data-thread="2">"#,
        ],
    );
}

/// Lanes of two ranks, which are created in another order: the highest rank comes first, and in it the lowest number.
#[test]
fn lanes_stand_by_rank_and_number() {
    let lanes = [(7, 3), (9, 6), (2, 6), (4, 3)].map(|(thread, rank)| create(thread, rank, 2));
    let wait = record(op::DELAY, 0, 0, 50, 0);
    // both of rank 6 wait in the end
    let steps = [ticks(5), wait.to_vec(), wait.to_vec(), ticks(9)].concat();
    let page = plain_page(&[lanes.concat(), steps].concat());
    let rows = ["2", "9", "4", "7", "0"].map(|thread| format!(r#"<tbody data-thread="{thread}">"#));
    in_order(&page, &rows.each_ref().map(String::as_str));
    let distances = &page[page.find("How far each lane").expect("distances")..];
    let names = ["2", "9", "4", "7"].map(|thread| format!("thread {thread}</b>"));
    in_order(distances, &names.each_ref().map(String::as_str));
}

/// Six ticks at rank 5, with two turns one after the other, and then four at rank 6.
#[test]
fn a_thread_goes_by_the_rank_of_most_of_its_ticks() {
    let (turn, priority) = (
        record(op::SET_TURN, 1, 0, 9, 0),
        record(op::SET_PRIORITY, 1, 6, 0, 0),
    );
    let bytes = [
        &create(1, 5, 8)[..],
        &ticks(3),
        &turn,
        &ticks(3),
        &priority,
        &ticks(4),
    ];
    let page = plain_page(&bytes.concat());
    assert!(page.contains("rank 5: 10 ticks"), "{page}");
}

#[test]
fn what_ended_a_stretch_is_said() {
    let asked = [
        record(op::YIELD, 0, 0, 0, 0),
        record(op::SET_TURN, 2, 0, 5, 0),
        record(op::DELAY, 0, 0, 2, 0),
        record(op::SUSPEND, 2, 0, 0, 0),
        record(op::RESUME, 2, 0, 0, 0),
        record(op::SET_PRIORITY, 1, 5, 0, 0),
        record(op::SET_PRIORITY, 1, 4, 0, 0),
        record(op::DELETE, 1, 0, 0, 0),
    ];
    let steps = asked
        .iter()
        .flat_map(|request| [&request[..], &ticks(3)].concat());
    let page = plain_page(&[two_lanes(3), steps.collect()].concat());
    for said in [
        "request 5: thread 1 yielded",
        "request 9: thread 2 was set to turns of 5",
        "waited: a delay",
        "thread 2 was suspended",
        "thread 1 was set to priority 5",
        "thread 1 was set to priority 4",
    ] {
        assert!(page.contains(said), "no '{said}' in {page}");
    }
}

/// As much as a page can have to show: all 16 threads share ranks, which they change all the time, and so are their turns.
fn crowded(requests: usize) -> Vec<u8> {
    let mut rng = Rng::new(19);
    let mut bytes = record(op::LOCK, 0, 0, 0, 0).to_vec();
    let rank = |rng: &mut Rng| rng.pick(&[0, 5, 9]);
    for thread in 1..16 {
        bytes.extend(create(thread, rank(&mut rng), rng.between(1, 39)));
    }
    bytes.extend(record(op::UNLOCK, 0, 0, 0, 0));
    while bytes.len() < 12 * requests {
        let thread = rng.between(1, 15) as u8;
        bytes.extend(match rng.below(20) {
            0..=4 => record(op::TICK, 0, 0, 0, 0),
            5..=8 => record(op::TICKS, 0, 0, rng.between(1, 399), 0),
            9..=10 => record(op::SET_TURN, thread, 0, rng.between(1, 39), 0),
            11..=14 => record(op::SET_PRIORITY, thread, rank(&mut rng), 0, 0),
            15 => record(op::YIELD, 0, 0, 0, 0),
            16 => record(op::DELAY, 0, 0, rng.between(1, 299), 0),
            17 => record(op::SUSPEND, thread, 0, 0, 0),
            _ => record(op::RESUME, thread, 0, 0, 0),
        });
    }
    bytes
}

/// With the longest names, of characters that are escaped.
#[test]
fn a_crowded_page_is_small() {
    let names = (0..16).map(|thread| format!("{thread}={}", "&".repeat(60)));
    let names = Names::read(&names.collect::<Vec<String>>().join(",")).expect("names");
    let page = page_of(&crowded(200_000), &names, &about());
    // it is crowded: all 16 are drawn
    assert_eq!(
        page.matches("its distance from its share over time")
            .count(),
        16
    );
    assert!(page.len() > MOST_BYTES / 2, "{} bytes", page.len());
    assert!(page.len() < MOST_BYTES, "{} bytes", page.len());
}

#[test]
fn the_first_million_requests_count() {
    let page = plain_page(&[two_lanes(MOST_RECORDS), vec![7]].concat());
    assert!(page.len() < MOST_BYTES, "{} bytes", page.len());
    assert!(page.contains(
        "The recording has 1,000,000 requests, of which none was refused, and 999,998 ticks."
    ));
    assert!(page.contains("only the first 1,000,000 count"));
}

#[test]
fn random_recordings_make_pages() {
    let mut rng = Rng::new(190);
    for _ in 0..40 {
        let trace = random_trace(&mut rng, 300);
        assert!(plain_page(&trace).len() < MOST_BYTES);
    }
}

#[test]
fn every_theorem_stands_in_its_file() {
    for theorem in &THEOREMS {
        let text = fs::read_to_string(top().join(theorem.file)).unwrap_or_default();
        let stated =
            ["abbrev pub ", "pub record "].map(|before| format!("{before}{} :", theorem.name));
        assert!(
            stated.iter().any(|stated| text.contains(stated)),
            "{} is not stated in {}",
            theorem.name,
            theorem.file
        );
    }
}

#[test]
fn ticks_are_said_to_two_places() {
    for (times, sum, said) in [
        (0, 16, "0"),
        (64, 16, "+4"),
        (-64, 16, "−4"),
        (440, 16, "+27.5"),
        (-6, 5, "−1.2"),
        (15, 8, "≈\u{2009}+1.88"),
        (-1_000_000, 3, "≈\u{2009}−333,333.33"),
    ] {
        assert_eq!(signed_quotient(times, sum), said, "{times} by {sum}");
    }
}
