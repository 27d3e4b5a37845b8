//! The drawing: two panels above each other, a row for each thread, and time from left to right: a wide column for each tick, a narrow one
//! where the cutter runs between two ticks. Lanes are told apart by their rows and by dark and light, so that no colour is needed.

use std::fmt::Write;

use model::{operation as op, word};

use crate::incident::{Incident, FILE};
use crate::run::{charged, Step};

const WIDTH: usize = 940;
const HEIGHT: usize = 536;
/// Where time begins.
const START: usize = 168;
const TICK: usize = 46;
const CUT: usize = 18;
const ROW: usize = 44;
/// Where the first panel begins.
const TOP: usize = 84;
/// A panel: its heading, three rows, and the ticks' numbers.
const HEADING: usize = 22;
const PANEL: usize = HEADING + 3 * ROW + 24;

/// The thread of a row, what it is called, and how its ticks look.
struct Row {
    thread: usize,
    name: &'static str,
    prints: &'static str,
    fill: &'static str,
}

/// An SVG file as it grows.
#[derive(Default)]
struct Sheet {
    text: String,
}

impl Sheet {
    fn line(&mut self, line: &str) {
        self.text += line;
        self.text += "\n";
    }

    /// Words that begin, end or have their middle at a point.
    fn words(&mut self, (x, y): (usize, usize), look: &str, words: &str) {
        let _ = writeln!(self.text, r#"<text x="{x}" y="{y}" {look}>{words}</text>"#);
    }

    fn area(&mut self, (x, y): (usize, usize), (width, height): (usize, usize), look: &str) {
        let _ = writeln!(
            self.text,
            r#"<rect x="{x}" y="{y}" width="{width}" height="{height}" {look}/>"#
        );
    }

    /// A tick in its column, which begins at a point.
    fn tick(&mut self, (x, y): (usize, usize), look: &str) {
        self.area((x + 3, y + 6), (TICK - 6, ROW - 12), look);
    }

    /// A tick that a lane has lost.
    fn lost(&mut self, (x, y): (usize, usize)) {
        self.tick(
            (x, y),
            r##"fill="#fff" stroke="#000" stroke-width="1.5" stroke-dasharray="4 3""##,
        );
        let look = r#"font-size="14" font-style="italic" text-anchor="middle""#;
        self.words((x + TICK / 2, y + ROW / 2 + 5), look, "lost");
    }
}

/// How a charged tick looks.
fn solid(fill: &str) -> String {
    format!(r##"fill="{fill}" stroke="#000" stroke-width="1.5""##)
}

/// Where the column of each step begins, and where the last one ends. A request that is no tick takes no time unless the cutter runs after it.
fn columns(cutter: usize, steps: &[Step]) -> Vec<usize> {
    let mut columns = vec![START];
    for step in steps {
        let width = match step.is_tick() {
            true => TICK,
            false if step.running == cutter => CUT,
            false => 0,
        };
        columns.push(columns[columns.len() - 1] + width);
    }
    columns
}

/// A panel, which begins at `top`: what is said above it, and a run.
fn panel(sheet: &mut Sheet, rows: &[Row; 3], heading: &str, steps: &[Step], top: usize) {
    let look = r#"font-size="16" font-weight="bold""#;
    sheet.words((20, top + 14), look, heading);
    let columns = columns(rows[0].thread, steps);
    let end = columns[columns.len() - 1];
    let first = top + HEADING;
    let y = |row: usize| first + row * ROW;
    for (at, row) in rows.iter().enumerate() {
        let look = r##"fill="#fff" stroke="#999""##;
        sheet.area((START, y(at)), (end - START, ROW), look);
        let middle = y(at) + ROW / 2;
        let name = r#"font-size="15" text-anchor="end""#;
        if row.prints.is_empty() {
            sheet.words((START - 12, middle + 5), name, row.name);
            continue;
        }
        sheet.words((START - 12, middle - 2), name, row.name);
        let prints = r#"font-size="13" text-anchor="end""#;
        sheet.words((START - 12, middle + 14), prints, row.prints);
        let has = charged(steps, |thread| thread == row.thread);
        let total = r#"font-size="20" font-weight="bold""#;
        sheet.words((end + 16, middle + 7), total, &format!("{has} ticks"));
    }
    events(sheet, rows, steps, &columns, first);
    ticks(sheet, steps, &columns, y(3) + 17);
}

/// What happens in a panel whose first row is at `first`.
fn events(sheet: &mut Sheet, rows: &[Row; 3], steps: &[Step], columns: &[usize], first: usize) {
    let place = |thread: usize| rows.iter().position(|row| row.thread == thread);
    for (at, step) in steps.iter().enumerate() {
        let width = columns[at + 1] - columns[at];
        if !step.is_tick() && width > 0 {
            sheet.area((columns[at], first), (CUT, 3 * ROW), r##"fill="#ddd""##);
            sheet.area(
                (columns[at] + 3, first + 6),
                (CUT - 6, ROW - 12),
                &solid("#000"),
            );
        }
        if let Some(row) = step.charged.and_then(place) {
            sheet.tick((columns[at], first + row * ROW), &solid(rows[row].fill));
        }
        // what is left of the turn of a lane that is sent back would be the next ticks
        let Some(sent) = step.sent_back else {
            continue;
        };
        let next = (at..steps.len()).filter(|&next| steps[next].is_tick());
        for next in next.take(sent.lost as usize) {
            if let Some(row) =
                place(sent.thread).filter(|_| steps[next].charged != Some(sent.thread))
            {
                sheet.lost((columns[next], first + row * ROW));
            }
        }
    }
}

/// The numbers of the ticks, with their feet at `y`.
fn ticks(sheet: &mut Sheet, steps: &[Step], columns: &[usize], y: usize) {
    let look = r#"font-size="13" text-anchor="end""#;
    sheet.words((START - 12, y), look, "tick");
    let ticks = (0..steps.len()).filter(|&at| steps[at].is_tick());
    for (number, at) in ticks.enumerate() {
        let look = r#"font-size="13" text-anchor="middle""#;
        sheet.words((columns[at] + TICK / 2, y), look, &(number + 1).to_string());
    }
}

/// What the signs mean.
fn legend(sheet: &mut Sheet, rows: &[Row; 3], y: usize) {
    let look = r#"font-size="14""#;
    let middle = y + ROW / 2 + 5;
    sheet.tick((20, y), &solid(rows[1].fill));
    sheet.tick((20 + TICK, y), &solid(rows[2].fill));
    sheet.words((24 + 2 * TICK, middle), look, "a tick charged to the lane");
    sheet.lost((314, y));
    sheet.words(
        (318 + TICK, middle),
        look,
        "a tick of its turn that it never gets",
    );
    sheet.area((624, y + 6), (CUT - 6, ROW - 12), &solid("#000"));
    sheet.words((644, middle), look, "the cutter runs, between two ticks");
}

/// The turn that a thread is created with.
fn turn(incident: &Incident, thread: usize) -> Option<u32> {
    let creates = incident
        .lanes
        .iter()
        .filter(|request| request[0] == op::CREATE);
    let mut of = creates.filter(|request| usize::from(request[1]) == thread);
    of.next().map(|request| word(request, 4))
}

/// The rows, from above.
fn rows(incident: &Incident) -> [Row; 3] {
    let row = |thread, name, prints, fill| Row {
        thread,
        name,
        prints,
        fill,
    };
    [
        row(incident.cutter, "Cutter", "", "#000"),
        row(incident.left, "Left lane", "odd seats", "#0072b2"),
        row(incident.right, "Right lane", "even seats", "#f0c65a"),
    ]
}

/// What the picture says, in one sentence on two lines, and what it says of a turn.
fn says(incident: &Incident, ruled: &[Step], behind: &[Step]) -> Result<[String; 3], String> {
    let has = |steps: &[Step], lane: usize| charged(steps, |thread| thread == lane);
    let (left, right) = (incident.left, incident.right);
    let (due, all) = (has(ruled, left), charged(ruled, |_| true));
    let (late, early) = (has(behind, left), has(behind, right));
    let turn = match (turn(incident, left), turn(incident, right)) {
        (Some(turn), Some(other)) if turn == other => turn,
        turns => {
            return Err(format!(
                "{FILE}: the lanes' turns are {turns:?}, and the picture is of equal turns"
            ))
        }
    };
    if [has(ruled, right), all - due] != [due, due] || late + early != all {
        return Err(format!(
            "{FILE}: the title is of all ticks charged to two lanes and, by the rules, half of them to each; \
             mend hosts/picture/src/draw.rs"
        ));
    }
    Ok([
        format!("When the cutter breaks in, these rules still give each lane {due} of {all} ticks;"),
        format!("the rule of the incident gives the left lane {late} and the right lane {early}."),
        format!(
            "A turn is {turn} ticks for either lane. The requests are the same in both runs, and both counts are proved \
             (Incident.antt: ruled, behind)."
        ),
    ])
}

/// The picture of the same requests under the rules and under the rule of the incident.
pub fn draw(incident: &Incident, ruled: &[Step], behind: &[Step]) -> Result<String, String> {
    let rows = rows(incident);
    let [first, second, foot] = says(incident, ruled, behind)?;
    let mut sheet = Sheet::default();
    sheet.line(&format!(
        "<!-- hosts/picture/draw draws this from {FILE} -->"
    ));
    sheet.line(&format!(
        r#"<svg xmlns="http://www.w3.org/2000/svg" viewBox="0 0 {WIDTH} {HEIGHT}" width="{WIDTH}" height="{HEIGHT}" role="img" font-family="sans-serif">"#
    ));
    sheet.line(&format!("<title>{first} {second}</title>"));
    sheet.area((0, 0), (WIDTH, HEIGHT), r##"fill="#fff""##);
    let look = r#"font-size="20" font-weight="bold""#;
    sheet.words((20, 34), look, &first);
    sheet.words((20, 60), look, &second);
    let heading = "Under these rules: a broken-off lane goes on with the rest of its turn";
    panel(&mut sheet, &rows, heading, ruled, TOP);
    let heading = "Under the rule of the incident: a broken-off lane goes to the back, the rest of its turn is gone";
    panel(&mut sheet, &rows, heading, behind, TOP + PANEL + 16);
    legend(&mut sheet, &rows, HEIGHT - 76);
    sheet.words((20, HEIGHT - 14), r#"font-size="13""#, &foot);
    sheet.line("</svg>");
    Ok(sheet.text)
}
