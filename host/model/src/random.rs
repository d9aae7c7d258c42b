//! A small generator of random input with fixed seeds, so that a failure can
//! be had again.

use crate::model::{Fence, Model};
use crate::stream::{alphabet, Operation};
use crate::table::{Strength, Table, COLUMNS, ROWS};

/// splitmix64.
#[derive(Clone, Debug)]
pub struct Random {
    seed: u64,
}

impl Random {
    pub fn new(seed: u64) -> Random {
        Random { seed }
    }

    pub fn number(&mut self) -> u64 {
        self.seed = self.seed.wrapping_add(0x9E37_79B9_7F4A_7C15);
        let mut mixed = self.seed;
        mixed = (mixed ^ (mixed >> 30)).wrapping_mul(0xBF58_476D_1CE4_E5B9);
        mixed = (mixed ^ (mixed >> 27)).wrapping_mul(0x94D0_49BB_1331_11EB);
        mixed ^ (mixed >> 31)
    }

    pub fn below(&mut self, end: usize) -> usize {
        (self.number() % end as u64) as usize
    }

    pub fn byte(&mut self) -> u8 {
        self.below(256) as u8
    }

    /// Each cell is unordered unless a draw in `one_in` says otherwise.
    pub fn table(&mut self, one_in: usize) -> Table {
        let mut table = Table::filled(Strength::Unordered);
        for earlier in ROWS {
            for later in COLUMNS {
                if self.below(one_in) == 0 {
                    table.set(earlier, later, Strength::RISING[self.below(4)]);
                }
            }
        }
        table
    }

    pub fn model(&mut self, fences: usize, ppo_one_in: usize, fence_one_in: usize) -> Model {
        let ppo = self.table(ppo_one_in);
        let mut fence = |number| Fence {
            name: format!("f{number}"),
            table: self.table(fence_one_in),
        };
        Model {
            name: "R".to_string(),
            ppo,
            fences: (0..fences).map(&mut fence).collect(),
        }
    }

    /// Operations of a machine with so many upstream fences.
    pub fn stream(&mut self, upstream_fences: usize, length: usize) -> Vec<Operation> {
        let operations = alphabet(upstream_fences);
        (0..length)
            .map(|_| operations[self.below(operations.len())])
            .collect()
    }
}
