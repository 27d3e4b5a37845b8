//! Document 01's example run, put to the door alone: what it prints is in the document.

use door::door;
use model::{at, fresh, operation as op, record, word};

#[test]
fn the_example_run_of_document_01() {
    let records = [
        record(op::CREATE, 1, 5, 2, 0),
        record(op::CREATE, 2, 5, 3, 0),
        record(op::TICK, 0, 0, 0, 0),
        record(op::TICK, 0, 0, 0, 0),
        record(op::MAKE, 0, 0, 0, 0),
        record(op::PEND, 0, 0, 100_000, 0),
        record(op::POST, 0, 0, 1, 0),
        record(op::PEND, 0, 0, 0, 0),
        record(99, 0, 0, 0, 0),
        record(op::OUTCOME, 2, 0, 0, 0),
    ];
    let lines = [
        "0 0 0 1", "1 0 0 1", "2 0 0 1", "3 0 0 2", "4 0 0 2", "5 1 0 1", "6 0 0 1", "7 -5 0 1",
        "8 -8 0 1", "9 0 0 1",
    ];
    let mut table = fresh();
    for (number, (record, line)) in records.iter().zip(lines).enumerate() {
        let mut area = [0xA5; 8];
        let code = door(&mut table, record, &mut area);
        assert_eq!(word(&area, 0) as i32, code);
        let (value, running) = (word(&area, 4), table[at::RUNNING]);
        assert_eq!(format!("{number} {code} {value} {running}"), line);
    }
}
