//! The rule, by pairs over whole streams.

use crate::answer::Refusal;
use crate::model::Model;
use crate::stream::Operation;
use crate::table::{Kind, Strength, ROWS};

#[derive(Clone, Copy, Debug, PartialEq, Eq)]
pub enum Way {
    Sparing,
    Full,
}

impl Way {
    pub const BOTH: [Way; 2] = [Way::Sparing, Way::Full];

    pub fn of_number(number: u64) -> Option<Way> {
        match number {
            0 => Some(Way::Sparing),
            1 => Some(Way::Full),
            _ => None,
        }
    }

    pub fn number(self) -> u8 {
        match self {
            Way::Sparing => 0,
            Way::Full => 1,
        }
    }

    pub fn word(self) -> &'static str {
        match self {
            Way::Sparing => "sparing",
            Way::Full => "full",
        }
    }
}

/// The highest of the model's default cell for two kinds and that cell in each
/// fence of the stretch between them. For the upstream model and the input this
/// is the strength asked, for the target model and the output the one offered.
pub fn highest(model: &Model, earlier: Kind, later: Kind, stretch: &[Operation]) -> Strength {
    let of_fence = |operation: &Operation| match operation {
        Operation::Access(_) => None,
        Operation::Fence(number) => Some(model.fences[*number].table.cell(earlier, later)),
    };
    stretch
        .iter()
        .filter_map(of_fence)
        .fold(model.ppo.cell(earlier, later), Strength::max)
}

/// For every access of the stream, in order: its kind, and `highest` between it
/// and an access of kind `later` that comes right after the stream. One walk
/// from the back meets every fence between before the access that it counts for.
pub fn strengths_before(model: &Model, stream: &[Operation], later: Kind) -> Vec<(Kind, Strength)> {
    let mut passed = [Strength::Unordered; 4];
    let mut found = Vec::new();
    for operation in stream.iter().rev() {
        match operation {
            Operation::Access(earlier) => {
                let in_fences = passed[*earlier as usize];
                found.push((*earlier, in_fences.max(model.ppo.cell(*earlier, later))));
            }
            Operation::Fence(number) => {
                for earlier in ROWS {
                    let cell = model.fences[*number].table.cell(earlier, later);
                    passed[earlier as usize] = passed[earlier as usize].max(cell);
                }
            }
        }
    }
    found.reverse();
    found
}

/// A pair of an earlier access and one that comes now.
#[derive(Clone, Copy, Debug, PartialEq, Eq)]
pub struct Pair {
    pub earlier: Kind,
    pub later: Kind,
    pub asked: Strength,
    pub offered: Strength,
}

impl Pair {
    pub fn is_short(&self) -> bool {
        self.asked > self.offered
    }

    /// As it would be with a fence of the model directly before the later access.
    fn with(self, target: &Model, fence: usize) -> Pair {
        let cell = target.fences[fence].table.cell(self.earlier, self.later);
        Pair {
            offered: self.offered.max(cell),
            ..self
        }
    }
}

/// What stands between the upstream model and the target model.
#[derive(Clone, Copy, Debug)]
pub struct Shim<'a> {
    pub way: Way,
    pub upstream: &'a Model,
    pub target: &'a Model,
}

#[derive(Clone, Copy, Debug, PartialEq, Eq, Hash)]
pub enum Choice {
    Nothing,
    Fence(usize),
    Refused,
}

impl Shim<'_> {
    /// All pairs that an access of kind `later` would end if it came now.
    pub fn pairs_ending(
        &self,
        input: &[Operation],
        output: &[Operation],
        later: Kind,
    ) -> Vec<Pair> {
        let asked = strengths_before(self.upstream, input, later);
        let offered = strengths_before(self.target, output, later);
        assert_eq!(
            asked.len(),
            offered.len(),
            "the output has the input's accesses"
        );
        let pair = |((earlier, asked), (_, offered))| Pair {
            earlier,
            later,
            asked,
            offered,
        };
        asked.into_iter().zip(offered).map(pair).collect()
    }

    /// What the rule puts directly before an access of kind `later`.
    pub fn choice(&self, input: &[Operation], output: &[Operation], later: Kind) -> Choice {
        let pairs = self.pairs_ending(input, output, later);
        if !pairs.iter().any(Pair::is_short) {
            return Choice::Nothing;
        }
        let will_do = |fence: &usize| {
            !pairs
                .iter()
                .any(|pair| pair.with(self.target, *fence).is_short())
        };
        let fences = 0..self.target.fences.len();
        let taken = match self.way {
            Way::Sparing => fences.into_iter().find(will_do),
            Way::Full => fences.last().filter(will_do),
        };
        taken.map_or(Choice::Refused, Choice::Fence)
    }

    /// The whole output for a stream of any length, or the earliest refusal.
    pub fn run(&self, stream: &[u8]) -> Result<Vec<Operation>, Refusal> {
        let mut input = Vec::new();
        let mut output = Vec::new();
        for (index, byte) in stream.iter().enumerate() {
            let operation = Operation::of_byte(*byte).ok_or(Refusal::NoOperation(index))?;
            match operation {
                Operation::Fence(number) if number >= self.upstream.fences.len() => {
                    return Err(Refusal::NoSuchFence(index));
                }
                Operation::Fence(_) => {}
                Operation::Access(kind) => {
                    match self.choice(&input, &output, kind) {
                        Choice::Nothing => {}
                        Choice::Fence(number) => output.push(Operation::Fence(number)),
                        Choice::Refused => return Err(Refusal::NoFenceWillDo(index)),
                    }
                    output.push(operation);
                }
            }
            input.push(operation);
        }
        Ok(output)
    }
}
