//! Single ticks of many tables at the same time: on another machine than x86-64 a call has a long
//! way, which many go together.

use model::{operation as op, record, AREA, TABLE};

use crate::lent::Lent;
use crate::machine::call;

/// Each table after as many single ticks of the compiled door as it is given with. Every tick is
/// answered by code 0, and its area holds nothing but zeros.
pub fn ticked(tables: &[([u8; TABLE], u32)]) -> Vec<[u8; TABLE]> {
    let mut next: Vec<[u8; TABLE]> = tables.iter().map(|(table, _)| *table).collect();
    let tick = record(op::TICK, 0, 0, 0, 0);
    let most = tables.iter().map(|(_, number)| *number).max();
    for done in 0..most.unwrap_or(0) {
        let at_work = |&i: &usize| tables[i].1 > done;
        let at_work: Vec<usize> = (0..tables.len()).filter(at_work).collect();
        let lend = |&i: &usize| Lent::new(1, &next[i], &tick, &[0xA5; AREA]);
        let mut lents: Vec<Lent> = at_work.iter().map(lend).collect();
        let codes = call(&mut lents);
        for ((i, lent), code) in at_work.into_iter().zip(lents).zip(codes) {
            assert!(code == 0 && lent.area() == [0; AREA], "tick {done}: {code}");
            next[i].copy_from_slice(lent.table());
        }
    }
    next
}
