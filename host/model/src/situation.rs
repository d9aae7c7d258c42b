//! The situation of a stream, by pairs.

use crate::rule::Shim;
use crate::stream::Operation;
use crate::table::{Strength, Table, COLUMNS};

/// For every pair of kinds: the highest strength asked among pairs still short
/// for such an access coming now, and the least offered among earlier accesses
/// of the first kind.
#[derive(Clone, Copy, Debug, PartialEq, Eq, Hash)]
pub struct Situation {
    pub need: Table,
    pub low: Table,
}

impl Situation {
    pub fn fresh() -> Situation {
        Situation {
            need: Table::filled(Strength::Unordered),
            low: Table::filled(Strength::SingleCopy),
        }
    }

    /// The situation after an accepted input with its output.
    pub fn after(shim: &Shim, input: &[Operation], output: &[Operation]) -> Situation {
        let mut situation = Situation::fresh();
        for later in COLUMNS {
            for pair in shim.pairs_ending(input, output, later) {
                let need = situation.need.cell(pair.earlier, later);
                if pair.is_short() {
                    situation
                        .need
                        .set(pair.earlier, later, need.max(pair.asked));
                }
                let low = situation.low.cell(pair.earlier, later);
                situation
                    .low
                    .set(pair.earlier, later, low.min(pair.offered));
            }
        }
        situation
    }
}
