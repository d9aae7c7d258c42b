//! Demand 2 at every pair and demand 3 over every placing, on random models.

use crate::common::*;
use shim_model::model::Model;
use shim_model::placing::{fewest, keeps};
use shim_model::random::Random;
use shim_model::rule::{highest, strengths_before, Shim, Way};
use shim_model::stream::{bytes, fences, Operation};
use shim_model::table::{Strength, Table, COLUMNS};

/// A pair of models of which the target often has a strong last fence, so that
/// many streams are accepted with fences.
fn models(random: &mut Random, most_fences: usize) -> (Model, Model) {
    let (upstream_fences, target_fences) =
        (random.below(most_fences + 1), random.below(most_fences + 1));
    let density = 1 + random.below(3);
    let upstream = random.model(upstream_fences, density, 2);
    let mut target = random.model(target_fences, 4, 1);
    if random.below(2) == 0 {
        if let Some(last) = target.fences.last_mut() {
            last.table = Table::filled(Strength::SingleCopy);
        }
    }
    (upstream, target)
}

#[test]
fn one_walk_gives_what_each_stretch_gives() {
    let mut random = Random::new(1);
    for _ in 0..300 {
        let fence_count = random.below(4);
        let model = random.model(fence_count, 2, 2);
        let length = random.below(12);
        let stream = random.stream(fence_count, length);
        for later in COLUMNS {
            let by_stretch: Vec<_> = (0..length)
                .filter_map(|index| match stream[index] {
                    Operation::Access(kind) => {
                        Some((kind, highest(&model, kind, later, &stream[index..])))
                    }
                    Operation::Fence(_) => None,
                })
                .collect();
            assert_eq!(strengths_before(&model, &stream, later), by_stretch);
        }
    }
}

/// Is there one fence before an access exactly where some pair ending there is
/// short without it, and nothing else but the input's accesses?
fn fences_stand_where_wanted(shim: &Shim, input: &[Operation], output: &[Operation]) -> bool {
    let mut rest = output;
    for (index, operation) in input.iter().enumerate() {
        let Operation::Access(kind) = operation else {
            continue;
        };
        let passed = &output[..output.len() - rest.len()];
        let pairs = shim.pairs_ending(&input[..index], passed, *kind);
        if pairs.iter().any(|pair| pair.is_short()) {
            let [Operation::Fence(_), after @ ..] = rest else {
                return false;
            };
            rest = after;
        }
        if rest.first() != Some(operation) {
            return false;
        }
        rest = &rest[1..];
    }
    rest.is_empty()
}

#[test]
fn every_pair_is_kept_and_fences_stand_where_wanted() {
    let mut random = Random::new(2);
    let mut accepted = 0;
    for _ in 0..3_000 {
        let (upstream, target) = models(&mut random, 4);
        let length = random.below(14);
        let input = random.stream(upstream.fences.len(), length);
        for way in Way::BOTH {
            let shim = shim(way, &upstream, &target);
            let Ok(output) = shim.run(&bytes(&input)) else {
                continue;
            };
            assert!(keeps(&upstream, &target, &input, &output));
            assert!(fences_stand_where_wanted(&shim, &input, &output));
            accepted += usize::from(fences(&output) > 0);
        }
    }
    assert!(accepted > 500, "only {accepted} runs with fences");
}

#[test]
fn the_full_way_has_the_fewest_fences_of_all_placings() {
    let mut random = Random::new(3);
    let mut met = [0; 5];
    for _ in 0..4_000 {
        let (upstream, target) = models(&mut random, 2);
        let length = random.below(8);
        let input = random.stream(upstream.fences.len(), length);
        if length - fences(&input) > 4 {
            continue;
        }
        let least = fewest(&upstream, &target, &input, 2);
        if let Ok(output) = shim(Way::Full, &upstream, &target).run(&bytes(&input)) {
            assert_eq!(Some(fences(&output)), least);
            met[fences(&output)] += 1;
        }
        if let Ok(output) = shim(Way::Sparing, &upstream, &target).run(&bytes(&input)) {
            assert!(Some(fences(&output)) >= least);
        }
    }
    assert!(
        met[1] > 50 && met[2] > 20 && met[3] > 5,
        "fences met {met:?}"
    );
}

#[test]
fn the_full_way_on_longer_streams_with_one_fence_in_a_gap() {
    let mut random = Random::new(4);
    for _ in 0..150 {
        let (upstream, target) = models(&mut random, 2);
        let length = 5 + random.below(4);
        let input = random.stream(upstream.fences.len(), length);
        if let Ok(output) = shim(Way::Full, &upstream, &target).run(&bytes(&input)) {
            assert_eq!(Some(fences(&output)), fewest(&upstream, &target, &input, 1));
        }
    }
}

#[test]
fn sparing_may_need_more_than_full() {
    // Fence 0 settles the store with the load alone, the last fence with the locked load too.
    let upstream = model_of("model U\nppo ---- ---- ---- SS--\nend\n");
    let none = "model T\nppo ---- ---- ---- ----\n";
    let target = model_of(&format!(
        "{none}fence part ---- ---- ---- S---\nfence full SSSS SSSS SSSS SSSS\nend\n"
    ));
    let run = |way| bytes(&shim(way, &upstream, &target).run(b"slL").unwrap());
    assert_eq!(run(Way::Sparing), b"s0l1L");
    assert_eq!(run(Way::Full), b"s1lL");
}

#[test]
fn no_placing_where_nothing_is_offered() {
    let upstream = builtin_model(0);
    let target = model_of("model NONE\nppo ---- ---- ---- ----\nend\n");
    let input = [b'l', b'l'].map(|byte| Operation::of_byte(byte).unwrap());
    assert_eq!(fewest(&upstream, &target, &input, 3), None);
    assert_eq!(fewest(&upstream, &target, &input[..1], 3), Some(0));
}
