//! The machine: reachable situations, and one state for each class of streams
//! that no continuation tells apart.

use crate::answer::Refusal;
use crate::limits::{SITUATIONS, STATES};
use crate::rule::{Choice, Shim, Way};
use crate::situation::Situation;
use crate::stream::{alphabet, Operation};
use std::collections::HashMap;

/// What a situation or a state does with one operation.
#[derive(Clone, Copy, Debug, PartialEq, Eq, Hash)]
pub enum Step {
    Refused,
    Taken { fence: Option<usize>, next: usize },
}

/// One step for each operation of the alphabet, in its order.
pub type Row = Vec<Step>;

/// An accepted stream, its output, and where they lead.
#[derive(Clone, Debug)]
pub struct Arrival {
    pub input: Vec<Operation>,
    pub output: Vec<Operation>,
    pub situation: Situation,
}

/// The reachable situations in the order of their first arrivals.
#[derive(Debug, Default)]
pub struct Explored {
    pub arrivals: Vec<Arrival>,
    pub rows: Vec<Row>,
    numbers: HashMap<Situation, usize>,
}

impl Explored {
    fn number_of(&mut self, arrival: Arrival) -> usize {
        let unseen = self.arrivals.len();
        let number = *self.numbers.entry(arrival.situation).or_insert(unseen);
        if number == unseen {
            self.arrivals.push(arrival);
        }
        number
    }
}

/// The arrival one operation further, with the fence that was put before it.
fn extended(shim: &Shim, from: &Arrival, operation: Operation) -> Option<(Option<usize>, Arrival)> {
    let Arrival {
        mut input,
        mut output,
        ..
    } = from.clone();
    let mut fence = None;
    if let Operation::Access(kind) = operation {
        match shim.choice(&input, &output, kind) {
            Choice::Refused => return None,
            Choice::Fence(number) => fence = Some(number),
            Choice::Nothing => {}
        }
        output.extend(fence.map(Operation::Fence));
        output.push(operation);
    }
    input.push(operation);
    let situation = Situation::after(shim, &input, &output);
    Some((
        fence,
        Arrival {
            input,
            output,
            situation,
        },
    ))
}

/// Breadth first with the operations in order, so arrivals come in the order of
/// shorter streams first, then by operation. Nothing where more than `most`
/// situations are reached.
pub fn explore(shim: &Shim, most: usize) -> Option<Explored> {
    let mut explored = Explored::default();
    explored.number_of(Arrival {
        input: vec![],
        output: vec![],
        situation: Situation::fresh(),
    });
    let operations = alphabet(shim.upstream.fences.len());
    let mut done = 0;
    while done < explored.arrivals.len() {
        let from = explored.arrivals[done].clone();
        let mut row = Row::new();
        for operation in &operations {
            row.push(match extended(shim, &from, *operation) {
                None => Step::Refused,
                Some((fence, arrival)) => Step::Taken {
                    fence,
                    next: explored.number_of(arrival),
                },
            });
            if explored.arrivals.len() > most {
                return None;
            }
        }
        explored.rows.push(row);
        done += 1;
    }
    Some(explored)
}

fn row_into(row: &Row, classes: &[usize]) -> Row {
    let step_into = |step: &Step| match *step {
        Step::Refused => Step::Refused,
        Step::Taken { fence, next } => Step::Taken {
            fence,
            next: classes[next],
        },
    };
    row.iter().map(step_into).collect()
}

/// The class of each situation, with two in one class exactly when no
/// continuation tells them apart. Classes are split until no row tells two of
/// one class apart. They are numbered by their first member, which is the
/// order of first arrival.
pub fn classes(rows: &[Row]) -> Vec<usize> {
    let mut classes = vec![0; rows.len()];
    let mut count = 0;
    loop {
        let mut numbers = HashMap::new();
        let number = |(own, row): (&usize, &Row)| {
            let unseen = numbers.len();
            *numbers
                .entry((*own, row_into(row, &classes)))
                .or_insert(unseen)
        };
        let split: Vec<usize> = classes.iter().zip(rows).map(number).collect();
        if numbers.len() == count {
            return classes;
        }
        count = numbers.len();
        classes = split;
    }
}

/// One row for each class, read off its first member.
pub fn merged(rows: &[Row], classes: &[usize]) -> Vec<Row> {
    let mut states = Vec::new();
    for (row, class) in rows.iter().zip(classes) {
        if *class == states.len() {
            states.push(row_into(row, classes));
        }
    }
    states
}

/// A machine as an image holds it.
#[derive(Clone, Debug, PartialEq, Eq)]
pub struct Machine {
    pub way: Way,
    pub upstream_name: String,
    pub target_name: String,
    pub upstream_fences: usize,
    pub target_fences: usize,
    pub states: Vec<Row>,
}

impl Machine {
    pub fn generate(shim: &Shim) -> Result<Machine, Refusal> {
        let explored = explore(shim, SITUATIONS).ok_or(Refusal::TooManySituations)?;
        let states = merged(&explored.rows, &classes(&explored.rows));
        if states.len() > STATES {
            return Err(Refusal::TooManyStates);
        }
        Ok(Machine {
            way: shim.way,
            upstream_name: shim.upstream.name.clone(),
            target_name: shim.target.name.clone(),
            upstream_fences: shim.upstream.fences.len(),
            target_fences: shim.target.fences.len(),
            states,
        })
    }

    /// The output from a state, and the state at its end, or the earliest refusal.
    pub fn run(&self, start: usize, stream: &[u8]) -> Result<(Vec<Operation>, usize), Refusal> {
        let operations = alphabet(self.upstream_fences);
        let mut state = start;
        let mut output = Vec::new();
        for (index, byte) in stream.iter().enumerate() {
            let operation = Operation::of_byte(*byte).ok_or(Refusal::NoOperation(index))?;
            let column = operations.iter().position(|own| *own == operation);
            match self.states[state][column.ok_or(Refusal::NoSuchFence(index))?] {
                Step::Refused => return Err(Refusal::NoFenceWillDo(index)),
                Step::Taken { fence, next } => {
                    output.extend(fence.map(Operation::Fence));
                    state = next;
                }
            }
            // Upstream fences are not passed on.
            if matches!(operation, Operation::Access(_)) {
                output.push(operation);
            }
        }
        Ok((output, state))
    }
}
