//! Placings of target fences by exhaustive search, to hold demand 3 against.

use crate::model::Model;
use crate::rule::highest;
use crate::stream::Operation;
use crate::table::Kind;

/// The accesses of a stream, each with its index.
fn accesses(stream: &[Operation]) -> Vec<(usize, Kind)> {
    let access = |(index, operation): (usize, &Operation)| match operation {
        Operation::Access(kind) => Some((index, *kind)),
        Operation::Fence(_) => None,
    };
    stream.iter().enumerate().filter_map(access).collect()
}

/// Has the output the input's accesses in order, and is no pair of them short?
pub fn keeps(upstream: &Model, target: &Model, input: &[Operation], output: &[Operation]) -> bool {
    let given = accesses(input);
    let passed = accesses(output);
    if !given
        .iter()
        .map(|(_, kind)| kind)
        .eq(passed.iter().map(|(_, kind)| kind))
    {
        return false;
    }
    let pair_kept = |i: usize, j: usize| {
        let (earlier, later) = (given[i].1, given[j].1);
        let asked = highest(upstream, earlier, later, &input[given[i].0..given[j].0]);
        let offered = highest(target, earlier, later, &output[passed[i].0..passed[j].0]);
        asked <= offered
    };
    (0..given.len()).all(|j| (0..j).all(|i| pair_kept(i, j)))
}

/// Every row of up to `most` fences that a gap may hold.
fn fillings(target_fences: usize, most: usize) -> Vec<Vec<Operation>> {
    let mut all = vec![Vec::new()];
    let mut longest = all.clone();
    for _ in 0..most {
        let longer = |row: &Vec<Operation>| {
            let row = row.clone();
            (0..target_fences).map(move |number| [&row[..], &[Operation::Fence(number)]].concat())
        };
        longest = longest.iter().flat_map(longer).collect();
        all.extend(longest.iter().cloned());
    }
    all
}

struct Search<'a> {
    upstream: &'a Model,
    target: &'a Model,
    input: &'a [Operation],
    kinds: Vec<Kind>,
    fillings: Vec<Vec<Operation>>,
    fewest: Option<usize>,
}

impl Search<'_> {
    /// Tries every filling of the gap before access `next`, or of the last gap.
    fn fill_gap(&mut self, next: usize, output: &[Operation], fences: usize) {
        for choice in 0..self.fillings.len() {
            let filling = &self.fillings[choice];
            let fences = fences + filling.len();
            if self.fewest.is_some_and(|fewest| fences >= fewest) {
                continue;
            }
            let mut output = [output, filling].concat();
            match self.kinds.get(next) {
                Some(kind) => {
                    output.push(Operation::Access(*kind));
                    self.fill_gap(next + 1, &output, fences);
                }
                None if keeps(self.upstream, self.target, self.input, &output) => {
                    self.fewest = Some(fences)
                }
                None => {}
            }
        }
    }
}

/// The least number of fences over all placings that keep every pair, with any
/// fences of the target, at most `most_in_gap` in a gap, before the first
/// access and after the last too. Nothing where no placing keeps them.
pub fn fewest(
    upstream: &Model,
    target: &Model,
    input: &[Operation],
    most_in_gap: usize,
) -> Option<usize> {
    let kinds = accesses(input).into_iter().map(|(_, kind)| kind).collect();
    let fillings = fillings(target.fences.len(), most_in_gap);
    let mut search = Search {
        upstream,
        target,
        input,
        kinds,
        fillings,
        fewest: None,
    };
    search.fill_gap(0, &[], 0);
    search.fewest
}
