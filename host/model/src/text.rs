//! A model's text: the reader with refusals 1, 2 and 3, and the writer.

use crate::answer::{within, Refusal};
use crate::form;
use crate::limits::TEXT_BYTES;
use crate::model::{Fence, Model};
use crate::table::Table;

pub fn read(text: &[u8]) -> Result<Model, Refusal> {
    within(text, TEXT_BYTES)?;
    if let Some(place) = form::fault(text) {
        return Err(Refusal::NotOfTheForm(place));
    }
    let text = std::str::from_utf8(text).expect("a text of the form is ASCII");
    let model = take_apart(text);
    match repeated_name(&model, text) {
        Some(place) => Err(Refusal::NameRepeats(place)),
        None => Ok(model),
    }
}

fn table_of(words: &[&str]) -> Table {
    let rows = words.try_into().expect("four rows in a table of the form");
    Table::of_rows(rows).expect("cells of the form")
}

/// The model that a text of the form tells of.
fn take_apart(text: &str) -> Model {
    let mut model = Model {
        name: String::new(),
        ppo: table_of(&["----"; 4]),
        fences: Vec::new(),
    };
    for line in text.lines() {
        let words: Vec<&str> = line.split(' ').collect();
        match words[0] {
            "model" => model.name = words[1].to_string(),
            "ppo" => model.ppo = table_of(&words[1..]),
            "fence" => model.fences.push(Fence {
                name: words[1].to_string(),
                table: table_of(&words[2..]),
            }),
            _ => {}
        }
    }
    model
}

fn repeated_name(model: &Model, text: &str) -> Option<usize> {
    let name = |number: usize| &model.fences[number].name;
    let repeats = |number: &usize| (0..*number).any(|above| name(above) == name(*number));
    let earliest = (0..model.fences.len()).find(repeats)?;
    // The fence lines follow the lines of the name and the default table.
    let lines_above = text.split_inclusive('\n').take(2 + earliest);
    Some(lines_above.map(str::len).sum::<usize>() + "fence ".len())
}

pub fn write(model: &Model) -> Vec<u8> {
    let mut text = format!("model {}\nppo {}\n", model.name, model.ppo.written());
    for fence in &model.fences {
        text += &format!("fence {} {}\n", fence.name, fence.table.written());
    }
    text += "end\n";
    text.into_bytes()
}
