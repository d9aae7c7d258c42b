//! Two models compared by their default tables.

use crate::model::Model;

/// Numbered in the order in which document 01 names them.
#[derive(Clone, Copy, Debug, PartialEq, Eq)]
pub enum Relation {
    Equal = 0,
    FirstStronger = 1,
    SecondStronger = 2,
    Neither = 3,
}

/// No cell lower and some cell higher.
fn stronger(one: &Model, other: &Model) -> bool {
    let none_lower = one
        .ppo
        .cells()
        .zip(other.ppo.cells())
        .all(|(own, its)| own >= its);
    let some_higher = one
        .ppo
        .cells()
        .zip(other.ppo.cells())
        .any(|(own, its)| own > its);
    none_lower && some_higher
}

pub fn compare(first: &Model, second: &Model) -> Relation {
    if first.ppo == second.ppo {
        Relation::Equal
    } else if stronger(first, second) {
        Relation::FirstStronger
    } else if stronger(second, first) {
        Relation::SecondStronger
    } else {
        Relation::Neither
    }
}
