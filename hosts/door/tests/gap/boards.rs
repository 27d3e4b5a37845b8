//! Boards with a line of any length, made by accepted requests.

use door::View;
use model::{fresh, operation as op, record, Rng, AREA};
use model::{FOREVER, INIT, LONGEST, PRIORITIES, SEMAPHORES, TABLE, THREADS};

use crate::lines::{lines, Kind, Line};

/// The priority that nobody on a board has.
pub const TOP: u8 = PRIORITIES as u8 - 1;

/// A table, and the line in it from which threads are taken.
pub struct Board {
    pub table: [u8; TABLE],
    pub line: Line,
    /// The line's threads, in their order.
    pub members: Vec<usize>,
}

/// How the numbers of a line's threads follow each other.
#[derive(Clone, Copy)]
enum Order {
    Ascending,
    Descending,
    Shuffled,
}

const ORDERS: [Order; 3] = [Order::Ascending, Order::Descending, Order::Shuffled];

/// What a thread does on a board.
#[derive(Clone, Copy)]
enum Seat {
    Stands(Line),
    Delays,
    Receives,
    IsSuspended,
}

/// The numbers of two lines beside this one: of 5, one is below it and one above.
pub fn beside(line: Line) -> [u8; 2] {
    [line.number ^ 1, line.number ^ 2]
}

/// The boards of a line of this length: every order in every company. Where nobody is left over,
/// companies differ by the shuffled order only.
pub fn boards(line: Line, length: usize, rng: &mut Rng) -> Vec<Board> {
    let mut boards = Vec::new();
    for (number, company) in companies(line).iter().enumerate() {
        let alike = number > 0 && length == line.longest();
        let orders = if alike { &ORDERS[2..] } else { &ORDERS[..] };
        let make = |&order| board(line, length, order, company, rng);
        boards.extend(orders.iter().map(make));
    }
    boards
}

/// What the threads that are left over do, in turn: nothing, so that they are free; all the same,
/// in another line of the same kind or in one of the same number; or some of everything.
fn companies(line: Line) -> [Vec<Seat>; 6] {
    let Line { kind, number } = line;
    let [below, above] = beside(line);
    let (second, third) = match kind {
        Kind::Ready => (Kind::Waiters, Kind::Senders),
        Kind::Waiters => (Kind::Senders, Kind::Ready),
        Kind::Senders => (Kind::Ready, Kind::Waiters),
    };
    let stand = |kind, number| Seat::Stands(Line { kind, number });
    let everything = vec![
        stand(kind, below),
        stand(second, number),
        stand(third, number),
        Seat::Delays,
        Seat::Receives,
        Seat::IsSuspended,
        stand(kind, above),
    ];
    [
        vec![],
        vec![stand(kind, below)],
        vec![stand(kind, above)],
        vec![stand(second, number)],
        vec![stand(third, number)],
        everything,
    ]
}

fn board(line: Line, length: usize, order: Order, company: &[Seat], rng: &mut Rng) -> Board {
    let (members, mut left) = choose(line, length, order, rng);
    let mut seats: Vec<(usize, Seat)> = members.iter().map(|&i| (i, Seat::Stands(line))).collect();
    let receivers = receivers(line, company);
    for &i in &receivers {
        if i != INIT && !members.contains(&i) {
            left.retain(|&other| other != i);
            seats.push((i, receiver_seat(line, i)));
        }
    }
    seats.extend(left.into_iter().zip(company.iter().copied().cycle()));
    let table = seated(line, &seats, &receivers);
    assert_eq!(lines(View(&table))[&line], members, "{line:?}");
    assert!(company.is_empty() || View(&table).threads() == THREADS);
    Board {
        table,
        line,
        members,
    }
}

/// The line's threads in their order, and those that are left over. Init is always in line 0, and
/// stands there as its number says.
fn choose(line: Line, length: usize, order: Order, rng: &mut Rng) -> (Vec<usize>, Vec<usize>) {
    let shut_out = line.shut_out();
    let mut members: Vec<usize> = (1..THREADS).filter(|i| !shut_out.contains(i)).collect();
    let has_init = !shut_out.contains(&INIT);
    let others = length - usize::from(has_init);
    let ahead_of_init = match order {
        Order::Ascending => 0,
        Order::Descending => {
            members.reverse();
            others
        }
        Order::Shuffled => {
            rng.shuffle(&mut members);
            rng.below(length)
        }
    };
    let left = members.split_off(others);
    if has_init {
        members.insert(ahead_of_init, INIT);
    }
    (members, left)
}

/// The threads to whom others send.
fn receivers(line: Line, company: &[Seat]) -> Vec<usize> {
    let receiver = |seat: Seat| match seat {
        Seat::Stands(line) if line.kind == Kind::Senders => Some(usize::from(line.number)),
        _ => None,
    };
    let seats = company.iter().copied().chain([Seat::Stands(line)]);
    seats.filter_map(receiver).collect()
}

/// A receiver that does not stand in the line under test: that line's own one is ready, so that it
/// can run; any other is in no line.
fn receiver_seat(line: Line, receiver: usize) -> Seat {
    let number = line.number;
    match line.kind {
        Kind::Senders if receiver == usize::from(number) => Seat::Stands(Line {
            kind: Kind::Ready,
            number,
        }),
        _ => Seat::IsSuspended,
    }
}

/// The table with each of these threads in its seat; in a line they follow each other as here.
fn seated(line: Line, seats: &[(usize, Seat)], receivers: &[usize]) -> [u8; TABLE] {
    let mut maker = Maker(fresh());
    (0..SEMAPHORES).for_each(|s| maker.ask(op::MAKE, s, 0, 0, 0));
    let created = seats.iter().filter(|(i, _)| *i != INIT);
    created.for_each(|&(i, _)| maker.create(i));
    let full = receivers.iter().filter(|&&i| i != INIT).chain(&[INIT]);
    full.for_each(|&i| maker.ask(op::SEND_FROM_INTERRUPT, i, 0, 0, 500 + i as u32));
    for &(i, seat) in seats {
        maker.wait(i, seat, line.number);
    }
    for &(i, seat) in seats {
        maker.make_ready(i, seat);
    }
    let Maker(table) = maker;
    table
}

/// A table that is still to be filled. While threads come to wait, only Init is ready.
struct Maker([u8; TABLE]);

impl Maker {
    fn ask(&mut self, operation: u8, object: usize, priority: u8, number: u32, data: u32) {
        let record = record(operation, object as u8, priority, number, data);
        let code = model::door(&mut self.0, &record, &mut [0; AREA]);
        assert!(code >= 0, "{record:?} got {code}");
    }

    /// The thread is created, and suspended until it takes its seat.
    fn create(&mut self, i: usize) {
        self.ask(op::CREATE, i, TOP, 1, 0);
        self.ask(op::SUSPEND, i, 0, 0, 0);
    }

    /// The thread gets this priority, and a turn of its own.
    fn set(&mut self, i: usize, priority: u8) {
        self.ask(op::SET_PRIORITY, i, priority, 0, 0);
        self.ask(op::SET_TURN, i, 0, 2 + i as u32, 0);
    }

    /// The thread comes to wait, if that is its seat, and every third is suspended then. Its priority
    /// is the number of the line under test or of one beside it: when its wait ends it enters a line
    /// from which another may have gone.
    fn wait(&mut self, i: usize, seat: Seat, number: u8) {
        let ticks = [FOREVER, 40, LONGEST, 7][i % 4];
        let (operation, object, ticks, data) = match seat {
            Seat::Stands(line) if line.kind == Kind::Waiters => (op::PEND, line.number, ticks, 0),
            Seat::Stands(line) if line.kind == Kind::Senders => {
                (op::SEND, line.number, ticks, 1_000 + i as u32)
            }
            Seat::Delays => (op::DELAY, 0, 40, 0),
            Seat::Receives => (op::RECEIVE, 0, ticks, 0),
            _ => return,
        };
        self.ask(op::RESUME, i, 0, 0, 0);
        self.ask(operation, object.into(), 0, ticks, data);
        self.set(i, number ^ [0, 1, 2][i % 3]);
        if i % 3 == 1 {
            self.ask(op::SUSPEND, i, 0, 0, 0);
        }
    }

    /// The thread joins its ready line, if that is its seat. Init stands in line 0 from the start:
    /// it goes behind those who joined before it.
    fn make_ready(&mut self, i: usize, seat: Seat) {
        match seat {
            Seat::Stands(line) if line.kind == Kind::Ready => {
                if i != INIT {
                    self.set(i, line.number);
                    self.ask(op::RESUME, i, 0, 0, 0);
                } else if lines(View(&self.0))[&line].len() > 1 {
                    self.ask(op::YIELD, 0, 0, 0, 0);
                }
            }
            _ => {}
        }
    }
}
