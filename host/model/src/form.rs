//! The form of a model's text, as a net of states that is walked along every
//! path at once. Its answer for a text that is not of the form is literal:
//! the length of the longest beginning that begins some text of the form.

use crate::limits::{MODEL_FENCES, NAME_BYTES};
use crate::model::is_name_byte;
use crate::table::Strength;
use std::collections::BTreeSet;
use std::sync::OnceLock;

type Class = fn(u8) -> bool;

enum Form {
    Word(&'static str),
    One(Class),
    Then(Vec<Form>),
    UpTo(usize, Box<Form>),
}

fn is_cell(byte: u8) -> bool {
    Strength::of_letter(byte).is_some()
}

fn name() -> Form {
    Form::Then(vec![
        Form::One(is_name_byte),
        Form::UpTo(NAME_BYTES - 1, Box::new(Form::One(is_name_byte))),
    ])
}

fn row() -> Form {
    Form::Then((0..4).map(|_| Form::One(is_cell)).collect())
}

fn table() -> Form {
    let space = || Form::Word(" ");
    Form::Then(vec![row(), space(), row(), space(), row(), space(), row()])
}

fn fence_line() -> Form {
    Form::Then(vec![
        Form::Word("fence "),
        name(),
        Form::Word(" "),
        table(),
        Form::Word("\n"),
    ])
}

fn text() -> Form {
    Form::Then(vec![
        Form::Word("model "),
        name(),
        Form::Word("\nppo "),
        table(),
        Form::Word("\n"),
        Form::UpTo(MODEL_FENCES, Box::new(fence_line())),
        Form::Word("end\n"),
    ])
}

enum Label {
    Silent,
    Byte(u8),
    Any(Class),
}

impl Label {
    fn takes(&self, byte: u8) -> bool {
        match self {
            Label::Silent => false,
            Label::Byte(own) => *own == byte,
            Label::Any(class) => class(byte),
        }
    }
}

/// `edges[s]` leads on from state `s`. State 0 is the beginning.
struct Net {
    edges: Vec<Vec<(Label, usize)>>,
    end: usize,
}

impl Net {
    fn of(form: &Form) -> Net {
        let mut net = Net {
            edges: vec![Vec::new()],
            end: 0,
        };
        net.end = net.lay(form, 0);
        net
    }

    fn state(&mut self) -> usize {
        self.edges.push(Vec::new());
        self.edges.len() - 1
    }

    fn edge(&mut self, from: usize, label: Label) -> usize {
        let to = self.state();
        self.edges[from].push((label, to));
        to
    }

    /// Lays a form out from a state and gives the state where it ends.
    fn lay(&mut self, form: &Form, from: usize) -> usize {
        match form {
            Form::Word(word) => word
                .bytes()
                .fold(from, |at, byte| self.edge(at, Label::Byte(byte))),
            Form::One(class) => self.edge(from, Label::Any(*class)),
            Form::Then(parts) => parts.iter().fold(from, |at, part| self.lay(part, at)),
            Form::UpTo(most, part) => self.lay_up_to(*most, part, from),
        }
    }

    fn lay_up_to(&mut self, most: usize, part: &Form, from: usize) -> usize {
        let exit = self.edge(from, Label::Silent);
        let mut at = from;
        for _ in 0..most {
            at = self.lay(part, at);
            self.edges[at].push((Label::Silent, exit));
        }
        exit
    }

    /// The states with all that silent edges add.
    fn settled(&self, mut states: BTreeSet<usize>) -> BTreeSet<usize> {
        let mut waiting: Vec<usize> = states.iter().copied().collect();
        while let Some(state) = waiting.pop() {
            for (label, to) in &self.edges[state] {
                if matches!(label, Label::Silent) && states.insert(*to) {
                    waiting.push(*to);
                }
            }
        }
        states
    }

    fn after(&self, states: &BTreeSet<usize>, byte: u8) -> BTreeSet<usize> {
        let edges = states.iter().flat_map(|state| &self.edges[*state]);
        self.settled(
            edges
                .filter(|(label, _)| label.takes(byte))
                .map(|(_, to)| *to)
                .collect(),
        )
    }
}

/// Nothing for a text of the form, else the length of its longest beginning
/// that begins one. Every state of the net leads to its end (a test holds it
/// to that), so a beginning can be completed while any state is left.
pub fn fault(text_bytes: &[u8]) -> Option<usize> {
    static NET: OnceLock<Net> = OnceLock::new();
    let net = NET.get_or_init(|| Net::of(&text()));
    let mut states = net.settled(BTreeSet::from([0]));
    for (length, byte) in text_bytes.iter().enumerate() {
        states = net.after(&states, *byte);
        if states.is_empty() {
            return Some(length);
        }
    }
    if states.contains(&net.end) {
        None
    } else {
        Some(text_bytes.len())
    }
}

#[cfg(test)]
mod tests {
    use super::*;

    #[test]
    fn every_state_leads_to_the_end() {
        let net = Net::of(&text());
        let mut leads = vec![false; net.edges.len()];
        leads[net.end] = true;
        for _ in 0..net.edges.len() {
            for state in 0..net.edges.len() {
                leads[state] |= net.edges[state].iter().any(|(_, to)| leads[*to]);
            }
        }
        assert!(leads.into_iter().all(|state_leads| state_leads));
    }
}
