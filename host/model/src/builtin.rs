//! The sixteen built-in models, typed from document 01's two tables.

use crate::model::{Fence, Model};
use crate::table::Table;

type Rows = [&'static str; 4];

const FULL: Rows = ["SSSS"; 4];
const NONE: Rows = ["----"; 4];

/// Rows cld and cst are SSSS unless given.
const fn usual(ld: &'static str, st: &'static str) -> Rows {
    ["SSSS", "SSSS", ld, st]
}

const TSO: Rows = usual("SSSS", "-SMS");
const PLO: Rows = usual("-SSS", "-SMS");
const PSO: Rows = usual("SSSS", "-S-S");
const LSO: Rows = usual("-SSS", "-S-S");
const RMO: Rows = usual("-S-S", "-S-S");

const MFENCE: (&str, Rows) = ("mfence", FULL);
const SYNC: (&str, Rows) = ("sync", FULL);
const POWER_LWSYNC: (&str, Rows) = ("lwsync", ["SSSS", "--NN", "SSSS", "--NN"]);

fn table(rows: Rows) -> Table {
    Table::of_rows(rows).expect("typed rows are tables")
}

fn model(name: &str, ppo: Rows, fences: &[(&str, Rows)]) -> Model {
    let fence = |(name, rows): &(&str, Rows)| Fence {
        name: name.to_string(),
        table: table(*rows),
    };
    Model {
        name: name.to_string(),
        ppo: table(ppo),
        fences: fences.iter().map(fence).collect(),
    }
}

/// Targets 9 to 13.
fn target(name: &str, ppo: Rows, msfence: Rows, mlfence: Rows) -> Model {
    model(
        name,
        ppo,
        &[("msfence", msfence), ("mlfence", mlfence), MFENCE],
    )
}

pub fn builtin(number: u64) -> Option<Model> {
    let found = match number {
        0 => model("SC", FULL, &[]),
        1 => model("TSO", TSO, &[MFENCE]),
        2 => model("PLO", PLO, &[MFENCE]),
        3 => model("PSO", PSO, &[MFENCE]),
        4 => model("LSO", LSO, &[MFENCE]),
        5 => model("RMO", RMO, &[]),
        6 => model(
            "POWERA",
            usual("-S-S", "-S-S"),
            &[("lwsync", usual("SSSS", "-SNS")), SYNC],
        ),
        7 | 14 => model("POWER", NONE, &[POWER_LWSYNC, SYNC]),
        8 | 15 => model("ARM", NONE, &[("dmb", FULL)]),
        9 => target("TSO", TSO, usual("SSSS", "-SSS"), usual("SSSS", "SSMS")),
        10 => target("PLO", PLO, usual("-SSS", "-SSS"), usual("SSSS", "SSMS")),
        11 => target("PSO", PSO, usual("SSSS", "-SSS"), usual("SSSS", "SS-S")),
        12 => target("LSO", LSO, usual("-SSS", "-SSS"), usual("SSSS", "SS-S")),
        13 => target("RMO", RMO, usual("-SSS", "-SSS"), usual("SSSS", "SS-S")),
        _ => return None,
    };
    Some(found)
}
