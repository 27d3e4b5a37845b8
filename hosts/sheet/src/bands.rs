//! Time, thinned: the ticks of a recording in bands of equal width, as many as a page shows side by side, and a course of values over
//! them of which each band keeps the extremes.

/// The bands of a recording.
#[derive(Clone, Copy, Debug, PartialEq, Eq)]
pub struct Bands {
    /// The ticks in all.
    pub ticks: u64,
    /// The ticks of a band; the last one may have fewer.
    pub width: u64,
}

/// A part of a band: which, and from which tick to which.
pub struct Piece {
    pub band: usize,
    pub from: u64,
    pub to: u64,
}

impl Bands {
    /// As many bands as a page shows at the most.
    pub const MOST: u64 = 720;

    pub fn of(ticks: u64) -> Bands {
        let width = ticks.div_ceil(Bands::MOST).max(1);
        Bands { ticks, width }
    }

    pub fn count(self) -> usize {
        self.ticks.div_ceil(self.width) as usize
    }

    /// The band in which this tick is.
    pub fn at(self, tick: u64) -> usize {
        (tick / self.width) as usize
    }

    /// The ticks of a band.
    pub fn ticks_of(self, band: usize) -> u64 {
        let from = band as u64 * self.width;
        self.ticks.saturating_sub(from).min(self.width)
    }

    /// The ticks that are left in the band of this one, with it.
    pub fn room(self, tick: u64) -> u64 {
        self.width - tick % self.width
    }

    /// So many bands as one.
    pub fn thinned(self, by: usize) -> Bands {
        Bands {
            ticks: self.ticks,
            width: self.width * by as u64,
        }
    }

    /// The ticks from the one up to the other, cut where a band ends.
    pub fn pieces(self, from: u64, to: u64) -> impl Iterator<Item = Piece> {
        let mut from = from;
        std::iter::from_fn(move || {
            let next = to.min(from + self.room(from));
            let piece = Piece {
                band: self.at(from),
                from,
                to: next,
            };
            from = next;
            (piece.from < piece.to).then_some(piece)
        })
    }
}

/// What a course shows of a band.
#[derive(Clone, Copy, Debug, PartialEq)]
pub struct Extremes {
    pub low: f64,
    pub high: f64,
    /// The value at the band's end, as far as it is known.
    pub last: f64,
    /// The largest of the bounds that stand in it.
    pub bound: f64,
    /// The course begins in it, at 0.
    pub is_first: bool,
}

impl Extremes {
    /// Of two bands that follow each other.
    fn joined(self, next: Extremes) -> Extremes {
        Extremes {
            low: self.low.min(next.low),
            high: self.high.max(next.high),
            last: next.last,
            bound: self.bound.max(next.bound),
            is_first: self.is_first,
        }
    }
}

/// A value over time, where there is one.
#[derive(Clone, Debug)]
pub struct Course {
    bands: Bands,
    pub extremes: Vec<Option<Extremes>>,
    /// It begins anew with the next value.
    is_begun: bool,
}

/// A value, and the bound that stands for it.
#[derive(Clone, Copy, Debug)]
pub struct Value {
    pub is: f64,
    pub bound: f64,
}

impl Course {
    pub fn new(bands: Bands) -> Course {
        Course {
            bands,
            extremes: vec![None; bands.count()],
            is_begun: false,
        }
    }

    /// The value stands in this band.
    pub fn touch(&mut self, band: usize, value: Value) {
        let Some(slot) = self.extremes.get_mut(band) else {
            return;
        };
        let kept = slot.get_or_insert(Extremes {
            low: value.is,
            high: value.is,
            last: value.is,
            bound: value.bound,
            is_first: false,
        });
        kept.low = kept.low.min(value.is);
        kept.high = kept.high.max(value.is);
        kept.bound = kept.bound.max(value.bound);
        kept.last = value.is;
        kept.is_first |= std::mem::take(&mut self.is_begun);
    }

    /// The course begins anew, at 0.
    pub fn begin(&mut self) {
        self.is_begun = true;
    }

    /// The value goes evenly from the one to the other, from this tick up to that.
    pub fn go(&mut self, (from, to): (u64, u64), (first, last): (f64, f64), bound: f64) {
        let length = (to - from) as f64;
        let at = |tick: u64| first + (last - first) * ((tick - from) as f64) / length;
        for piece in self.bands.pieces(from, to) {
            for tick in [piece.from, piece.to] {
                let is = at(tick);
                self.touch(piece.band, Value { is, bound });
            }
        }
    }

    /// The same with so many bands taken for one.
    pub fn thinned(&self, by: usize) -> Course {
        let bands = self.bands.thinned(by);
        let each = self.extremes.chunks(by);
        let extremes = each.map(|some| some.iter().flatten().copied().reduce(Extremes::joined));
        Course {
            bands,
            extremes: extremes.collect(),
            is_begun: false,
        }
    }

    /// The furthest from 0 that the value and its bound ever are.
    pub fn reach(&self) -> f64 {
        let each = self.extremes.iter().flatten();
        each.map(|kept| kept.high.max(-kept.low).max(kept.bound))
            .fold(0.0, f64::max)
    }

    /// The largest bound.
    pub fn bound(&self) -> f64 {
        let each = self.extremes.iter().flatten();
        each.map(|kept| kept.bound).fold(0.0, f64::max)
    }
}
