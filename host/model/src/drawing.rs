//! Drawings: a machine as a graph in the DOT language. The writer goes over all
//! pairs of a state and an operation. The reader reads nothing: it searches for
//! the machine whose drawing agrees with the text for longest, trying every
//! option at every choice that a drawing leaves, and has it drawn again.

use crate::answer::{within, Refusal};
use crate::limits::{DRAWING_BYTES, MODEL_FENCES, NAME_BYTES, STATES};
use crate::machine::{Machine, Row, Step};
use crate::model::is_name_byte;
use crate::rule::Way;
use crate::stream::{alphabet, Operation};
use std::sync::OnceLock;

const OPENING: &str = "digraph shim {\n";
const CLOSING: &str = "}\n";
const LABEL: &str = "label=\"";
const LABEL_END: &str = "\";\n";
const ARROW: &str = " -> ";
const EDGE_LABEL: &str = " [label=\"";
const EDGE_END: &str = "\"];\n";
const REFUSED: &str = "refused";
const NO_FENCE: &str = "-";
const REFUSAL: &str = "!";

fn letter(operation: Operation) -> String {
    char::from(operation.byte()).to_string()
}

fn nodes(states: usize) -> String {
    (0..states).map(|state| format!("{state};\n")).collect()
}

// ---- writing

/// Where a step leads, and what is put before the operation.
fn told(step: Step) -> (String, String) {
    match step {
        Step::Refused => (REFUSED.to_string(), REFUSAL.to_string()),
        Step::Taken { fence, next } => {
            let mark = fence.map_or(NO_FENCE.to_string(), |n| letter(Operation::Fence(n)));
            (next.to_string(), mark)
        }
    }
}

pub fn write(machine: &Machine) -> Vec<u8> {
    let (upstream, target) = (&machine.upstream_name, &machine.target_name);
    let (ups, targets) = (machine.upstream_fences, machine.target_fences);
    let way = machine.way.word();
    let states = machine.states.len();
    let mut text = format!(
        "{OPENING}{LABEL}{upstream} {target} {way} {ups} {targets}{LABEL_END}{}",
        nodes(states)
    );
    let operations = alphabet(ups);
    let pairs = (0..states).flat_map(|state| (0..operations.len()).map(move |at| (state, at)));
    for (state, at) in pairs {
        let (next, mark) = told(machine.states[state][at]);
        let operation = letter(operations[at]);
        text += &format!("{state}{ARROW}{next}{EDGE_LABEL}{operation} {mark}{EDGE_END}");
    }
    text += CLOSING;
    text.into_bytes()
}

// ---- searching

pub fn read(text: &[u8]) -> Result<Machine, Refusal> {
    within(text, DRAWING_BYTES)?;
    let mut search = Search {
        text,
        place: 0,
        longest: 0,
    };
    match search.machine() {
        Some(machine) if search.place == text.len() => {
            assert!(write(&machine) == text, "the machine that was searched for");
            Ok(machine)
        }
        _ => Err(Refusal::NotOfTheForm(search.longest)),
    }
}

/// What was chosen so far agrees with the text up to `place`. Of all that was
/// tried the best agreed for `longest` bytes. That is the longest beginning of
/// the text that begins some drawing, for after every option there is a way to
/// the end of one.
struct Search<'a> {
    text: &'a [u8],
    place: usize,
    longest: usize,
}

/// How many bytes agree, and whether the text begins with all the parts.
fn agreement(text: &[u8], parts: &[&str]) -> (usize, bool) {
    let mut agreed = 0;
    for byte in parts.iter().flat_map(|part| part.bytes()) {
        if text.get(agreed) != Some(&byte) {
            return (agreed, false);
        }
        agreed += 1;
    }
    (agreed, true)
}

impl Search<'_> {
    /// Tries every option and goes on after the one that the text has. There
    /// is one at most, for no option's bytes begin another's.
    fn chosen<'p, T>(&mut self, options: impl Iterator<Item = (T, [&'p str; 3])>) -> Option<T> {
        let mut found = None;
        let rest = &self.text[self.place..];
        for (option, parts) in options {
            let (agreed, whole) = agreement(rest, &parts);
            self.longest = self.longest.max(self.place + agreed);
            if whole {
                assert!(found.is_none(), "two options agree");
                found = Some((option, agreed));
            }
        }
        let (option, length) = found?;
        self.place += length;
        Some(option)
    }

    fn forced(&mut self, bytes: &str) -> Option<()> {
        self.chosen([((), [bytes, "", ""])].into_iter())
    }

    /// For each length the name that agrees best: the text's bytes where a name may hold them.
    fn name(&mut self) -> Option<String> {
        let rest = &self.text[self.place..];
        let best = |at: usize| match rest.get(at) {
            Some(byte) if is_name_byte(*byte) => char::from(*byte),
            _ => '_',
        };
        let named = |length| (0..length).map(best).collect();
        let names: Vec<String> = (1..=NAME_BYTES).map(named).collect();
        let options = names.iter().map(|name| (name, [name, " ", ""]));
        self.chosen(options).cloned()
    }

    fn count(&mut self, ends: &str) -> Option<usize> {
        let counts: Vec<String> = (0..=MODEL_FENCES).map(|count| count.to_string()).collect();
        let options = counts.iter().enumerate();
        self.chosen(options.map(|(count, shown)| (count, [shown, ends, ""])))
    }

    /// How many node lines there are, told by the edge that follows the last.
    fn states(&mut self) -> Option<usize> {
        static BLOCKS: OnceLock<Vec<String>> = OnceLock::new();
        let blocks = BLOCKS.get_or_init(|| (1..=STATES).map(nodes).collect());
        let options = blocks.iter().zip(1..);
        let states = self.chosen(options.map(|(block, states)| (states, [block, "0", ARROW])))?;
        self.place -= "0".len() + ARROW.len();
        Some(states)
    }

    fn machine(&mut self) -> Option<Machine> {
        self.forced(OPENING)?;
        self.forced(LABEL)?;
        let upstream_name = self.name()?;
        let target_name = self.name()?;
        let way = self.chosen(
            Way::BOTH
                .map(|way| (way, [way.word(), " ", ""]))
                .into_iter(),
        )?;
        let upstream_fences = self.count(" ")?;
        let target_fences = self.count(LABEL_END)?;
        let states = self.states()?;
        let edges = Edges::new(states, upstream_fences, target_fences);
        let states = (0..states).map(|state| edges.row(self, state));
        let machine = Machine {
            way,
            upstream_name,
            target_name,
            upstream_fences,
            target_fences,
            states: states.collect::<Option<Vec<Row>>>()?,
        };
        self.forced(CLOSING)?;
        Some(machine)
    }
}

/// What the edges of a drawing may say.
struct Edges {
    operations: Vec<Operation>,
    states: Vec<String>,
    fences: Vec<String>,
}

impl Edges {
    fn new(states: usize, upstream_fences: usize, target_fences: usize) -> Edges {
        let fence = |number| letter(Operation::Fence(number));
        Edges {
            operations: alphabet(upstream_fences),
            states: (0..states).map(|state| state.to_string()).collect(),
            fences: (0..target_fences).map(fence).collect(),
        }
    }

    fn row(&self, search: &mut Search, state: usize) -> Option<Row> {
        let operations = self.operations.iter();
        operations
            .map(|operation| self.step(search, state, *operation))
            .collect()
    }

    fn step(&self, search: &mut Search, state: usize, operation: Operation) -> Option<Step> {
        let is_access = matches!(operation, Operation::Access(_));
        search.forced(&format!("{state}{ARROW}"))?;
        let between = format!("{EDGE_LABEL}{} ", letter(operation));
        let refused = (None, [REFUSED, &between, ""]);
        let states = self.states.iter().enumerate();
        let nexts = states.map(|(next, shown)| (Some(next), [shown, &between, ""]));
        let next = search.chosen(nexts.chain(is_access.then_some(refused)))?;
        let Some(next) = next else {
            search.forced(REFUSAL)?;
            search.forced(EDGE_END)?;
            return Some(Step::Refused);
        };
        let none = (None, [NO_FENCE, EDGE_END, ""]);
        let numbered = self.fences.iter().enumerate().filter(|_| is_access);
        let fences = numbered.map(|(number, shown)| (Some(number), [shown, EDGE_END, ""]));
        let fence = search.chosen(fences.chain([none]))?;
        Some(Step::Taken { fence, next })
    }
}
