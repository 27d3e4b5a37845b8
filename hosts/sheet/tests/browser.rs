//! The page in a real browser, at three sizes and on paper: nothing is complained of, its figures are the report's, no label stands on another,
//! and nothing is wider than the screen. Pictures of it are put into target/sheet for a person to look at.

mod told;

use std::fs;
use std::path::{Path, PathBuf};
use std::process::Command;

use browser::{Browser, Media, Page, Size};
use model::{operation as op, record};
use programs::{top, Program};
use told::{create, ticks};

/// The screens, by the name of the picture.
const SCREENS: [(&str, Size); 3] = [
    ("desktop", screen(1280, 900, false)),
    ("tablet", screen(768, 1024, false)),
    ("phone", screen(390, 844, true)),
];

const fn screen(width: u32, height: u32, mobile: bool) -> Size {
    Size {
        width,
        height,
        mobile,
        scale: 1.0,
    }
}

/// The report's lines, as the page says them: of a lag that is not 0 it has the report's number before the division.
const FIGURES: &str = r#"[...document.querySelectorAll('tbody[data-thread]')].map(thread => {
    const figure = name => thread.querySelector(`[data-figure=${name}]`);
    const number = text => text.replaceAll(',', '').replace('−', '-').trim();
    const lag = figure('lag').querySelector('small');
    const told = lag && lag.innerText.includes('÷') ? lag.innerText.split('÷')[0] : figure('lag').firstChild.textContent;
    return `${thread.dataset.thread} ${number(figure('charged').firstChild.textContent)} ${number(told)}`;
}).sort((one, other) => parseInt(one) - parseInt(other)).join('\n')"#;

/// Labels that stand on one another or leave the screen, and pictures that have no size.
const FAULTS: &str = r#"(() => {
    const faults = [], wide = document.documentElement.clientWidth;
    const lines = label => [...label.getClientRects()].map(box => [label.innerText, box]);
    const shown = [...document.querySelectorAll('.label')].flatMap(lines).filter(([, box]) => box.width > 0);
    shown.forEach(([text, box], at) => {
        if (box.left < -0.5 || box.right > wide + 0.5) faults.push(`'${text}' leaves the screen`);
        shown.slice(at + 1).forEach(([other, its]) => {
            const across = Math.min(box.right, its.right) - Math.max(box.left, its.left);
            const down = Math.min(box.bottom, its.bottom) - Math.max(box.top, its.top);
            if (across > 1 && down > 1) faults.push(`'${text}' stands on '${other}'`);
        });
    });
    for (const svg of document.querySelectorAll('svg')) {
        const box = svg.getBoundingClientRect();
        if (box.width < 50 || box.height < 4) faults.push(`a picture of ${box.width} by ${box.height}`);
    }
    if (document.documentElement.scrollWidth > wide) faults.push(`the page is ${document.documentElement.scrollWidth} wide on ${wide}`);
    return [...new Set(faults)].slice(0, 20).join('\n');
})()"#;

/// The folder of the pictures.
fn pictures() -> PathBuf {
    let folder = top().join("target/sheet");
    fs::create_dir_all(&folder).expect("target can be written");
    folder
}

/// The page of a recording under these names.
fn made(name: &str, recording: &Path, names: &str) -> PathBuf {
    let out = pictures().join(format!("{name}.html"));
    let run = Command::new(env!("CARGO_BIN_EXE_sheet"))
        .args(["--names", names])
        .arg(recording)
        .arg(&out)
        .output();
    let run = run.expect("the program runs");
    assert!(
        run.status.success(),
        "{}",
        String::from_utf8_lossy(&run.stderr)
    );
    out
}

fn report(recording: &Path) -> String {
    let output = Program::Report.fed_file(recording);
    String::from_utf8(output.stdout)
        .expect("the report is text")
        .trim_end()
        .to_string()
}

/// The page is looked at on every screen.
fn look(browser: &Browser, name: &str, page: &Path, report: &str) {
    for (screen, size) in SCREENS {
        let open = browser
            .open(page, size)
            .unwrap_or_else(|fault| panic!("{fault}"));
        let read = |expression| {
            open.evaluate(expression)
                .unwrap_or_else(|fault| panic!("{name}, {screen}: {fault}"))
        };
        assert_eq!(
            read(FIGURES),
            report,
            "{name}, {screen}: the figures and the report"
        );
        assert_eq!(read(FAULTS), "", "{name}, {screen}");
        shoot(&open, &format!("{name}-{screen}"));
        assert_eq!(open.complaints(), Vec::<String>::new(), "{name}, {screen}");
    }
}

fn shoot(page: &Page, name: &str) {
    let picture = pictures().join(format!("{name}.png"));
    page.screenshot(&picture)
        .unwrap_or_else(|fault| panic!("{fault}"));
    let bytes = fs::read(&picture).expect("the picture");
    assert!(bytes.starts_with(b"\x89PNG"), "{name} is no picture");
}

/// 15 lanes of one rank that yield, wait and are set.
fn crowd() -> PathBuf {
    let mut bytes = record(op::LOCK, 0, 0, 0, 0).to_vec();
    (1..16).for_each(|thread| bytes.extend(create(thread, 5, 1 + u32::from(thread) % 9)));
    bytes.extend(record(op::UNLOCK, 0, 0, 0, 0));
    for step in 0..5000u32 {
        bytes.extend(ticks(3));
        match step % 40 {
            7 => bytes.extend(record(op::YIELD, 0, 0, 0, 0)),
            19 => bytes.extend(record(op::DELAY, 0, 0, 30, 0)),
            31 => bytes.extend(record(
                op::SET_TURN,
                (1 + step % 15) as u8,
                0,
                1 + step % 9,
                0,
            )),
            _ => {}
        }
    }
    let path = pictures().join("crowd.trace");
    fs::write(&path, bytes).expect("target can be written");
    path
}

#[test]
fn the_pages_stand_up_in_a_browser() {
    let browser = Browser::start().unwrap_or_else(|fault| panic!("{fault}"));
    let example = top().join("examples/two-lanes.trace");
    let report_of_example = report(&example);
    look(
        &browser,
        "two-lanes",
        &top().join("docs/two-lanes.html"),
        &report_of_example,
    );
    let long =
        (0..16).map(|thread| format!("{thread}={}", "a lane with quite a long name ".repeat(2)));
    let long = made(
        "long-names",
        &example,
        &long.collect::<Vec<String>>().join(","),
    );
    look(&browser, "long-names", &long, &report_of_example);
    let crowd = crowd();
    let page = made("crowd", &crowd, "1=left lane");
    look(&browser, "crowd", &page, &report(&crowd));
    let battery = top().join("examples/battery.trace");
    let page = made("battery", &battery, "2=lane");
    look(&browser, "battery", &page, &report(&battery));
}

#[test]
fn the_example_prints_on_few_sheets_of_a4_and_without_colour() {
    let browser = Browser::start().unwrap_or_else(|fault| panic!("{fault}"));
    let (_, desktop) = SCREENS[0];
    let page = browser
        .open(&top().join("docs/two-lanes.html"), desktop)
        .unwrap_or_else(|fault| panic!("{fault}"));
    page.without_colour(true)
        .unwrap_or_else(|fault| panic!("{fault}"));
    shoot(&page, "two-lanes-grey");
    page.emulate(Media::Print)
        .unwrap_or_else(|fault| panic!("{fault}"));
    let paper = pictures().join("two-lanes.pdf");
    let sheets = page.pdf(&paper).unwrap_or_else(|fault| panic!("{fault}"));
    // three with the fonts of the machine on which it was drawn up
    assert!((2..=4).contains(&sheets), "{sheets} sheets");
    let bytes = fs::read(&paper).expect("the sheets");
    let is_a4 = String::from_utf8_lossy(&bytes).contains("/MediaBox [0 0 594.9");
    assert!(is_a4, "the sheets are of another size");
    assert_eq!(page.complaints(), Vec::<String>::new());
}
