//! What the random scenes reach, so that it is known that they try what they are for.

use std::collections::BTreeMap;

use sheet::stretches::Stretches;

use crate::naive::Stretch;
use crate::rows::Recount;

/// How many scenes or stretches there are of each sort.
#[derive(Debug, Default)]
pub struct Reached {
    /// The scenes with bands of more than one tick, and with such as hold a round or more of a stretch.
    wide: usize,
    wider_than_round: usize,
    /// The scenes with ticks under lock, and with more stretches than are kept.
    locked: usize,
    pub more_than_kept: usize,
    /// The stretches that begin and end between the ticks of one request, and those that end between such.
    within_request: usize,
    ended_inside: usize,
    /// By the incident: the stretches with a round that is uneven, and with a lane further or later than it may be by the rules.
    uneven: usize,
    far: usize,
    /// The threads that are broken into.
    broken: usize,
    /// The stretches by what ended them.
    endings: BTreeMap<String, usize>,
}

/// What may end a stretch.
const ENDINGS: [&str; 13] = [
    "Yielded",
    "TurnSet",
    "PrioritySet",
    "Deleted",
    "Suspended",
    "Delayed",
    "Received",
    "Sent",
    "Pended",
    "Created",
    "Resumed",
    "WaitEnded",
    "Came",
];

impl Reached {
    pub fn add(&mut self, ruled: &Recount, incident: &Recount) {
        let shared: Vec<&Stretch> = shared(ruled);
        let holds_round = |stretch: &&Stretch| stretch.rounds() > 1 && stretch.sum < ruled.width;
        self.wide += usize::from(ruled.width > 1);
        self.wider_than_round += usize::from(shared.iter().any(holds_round));
        self.locked += usize::from(ruled.locked.iter().any(|&ticks| ticks > 0));
        self.more_than_kept += usize::from(shared.len() > Stretches::MOST);
        self.broken += ruled.rows.iter().filter(|row| row.broken > 0).count();
        for stretch in shared {
            self.within_request += usize::from(stretch.first == stretch.last);
            self.ended_inside += usize::from(stretch.is_ended_inside);
            for (_, deed) in &stretch.deeds {
                let name = format!("{deed:?}");
                let name = name.split('(').next().unwrap_or_default();
                *self.endings.entry(String::from(name)).or_default() += 1;
            }
        }
        for stretch in self::shared(incident) {
            self.uneven += usize::from(stretch.uneven() > 0);
            self.far += usize::from(!stretch.is_near());
        }
    }

    /// There is enough of each.
    pub fn is_enough(&self) {
        let scenes = [self.wide, self.wider_than_round, self.locked];
        assert!(scenes.iter().all(|&scenes| scenes >= 30), "{self:?}");
        let stretches = [
            self.within_request,
            self.ended_inside,
            self.uneven,
            self.far,
            self.broken,
        ];
        assert!(
            stretches.iter().all(|&stretches| stretches >= 30),
            "{self:?}"
        );
        for ending in ENDINGS {
            assert!(
                self.endings.contains_key(ending),
                "nothing is ended by {ending}"
            );
        }
    }
}

fn shared(recount: &Recount) -> Vec<&Stretch> {
    let charged = recount.stretches.iter().filter(|stretch| stretch.ticks > 0);
    charged.filter(|stretch| stretch.is_shared()).collect()
}
