//! Situations and states.

use crate::common::*;
use shim_model::answer::Refusal;
use shim_model::machine::{classes, explore, merged, Machine};
use shim_model::model::Model;
use shim_model::random::Random;
use shim_model::rule::{Choice, Shim, Way};
use shim_model::situation::Situation;
use shim_model::stream::{alphabet, bytes, Operation};
use shim_model::table::{Kind, Strength, Table, COLUMNS, ROWS};

// ---- counts at the limits

fn counts(way: Way, upstream: &str, target: &str) -> (usize, usize) {
    let (upstream, target) = (file_model(upstream), file_model(target));
    let explored = explore(&shim(way, &upstream, &target), usize::MAX).unwrap();
    (
        explored.arrivals.len(),
        merged(&explored.rows, &classes(&explored.rows)).len(),
    )
}

fn generate_number(way: Way, upstream: &str, target: &str) -> u64 {
    generated(
        u64::from(way.number()),
        &file_text(upstream),
        &file_text(target),
    )
    .0
    .number
}

#[test]
fn exactly_4096_situations_and_4097() {
    for way in Way::BOTH {
        assert_eq!(counts(way, "a4096", "full"), (4_096, 47));
        assert_eq!(generate_number(way, "a4096", "full"), 0);
        assert_eq!(counts(way, "a4097", "part").0, 4_097);
        assert_eq!(generate_number(way, "a4097", "part"), 8);
    }
}

#[test]
fn exactly_255_states_and_256() {
    assert_eq!(counts(Way::Sparing, "st255-up", "st-target").1, 255);
    assert_eq!(generate_number(Way::Sparing, "st255-up", "st-target"), 0);
    assert_eq!(counts(Way::Sparing, "st256-up", "st-target").1, 256);
    assert_eq!(generate_number(Way::Sparing, "st256-up", "st-target"), 9);
}

#[test]
fn both_limits_passed_is_8() {
    assert_eq!(
        counts(Way::Sparing, "both-up", "both-target"),
        (6_016, 1_488)
    );
    assert_eq!(generate_number(Way::Sparing, "both-up", "both-target"), 8);
}

#[test]
fn a_machine_of_255_states_has_14_blocks() {
    let (answer, image) = generated(0, &file_text("st255-up"), &file_text("st-target"));
    assert_eq!(answer, done(7_168, 0, 0));
    assert_eq!(image.len(), 7_168);
}

#[test]
fn fresh_is_the_situation_of_no_access() {
    let (upstream, target) = (builtin_model(1), builtin_model(15));
    let shim = shim(Way::Full, &upstream, &target);
    let upstream_fences = [Operation::Fence(0), Operation::Fence(0)];
    assert_eq!(Situation::after(&shim, &[], &[]), Situation::fresh());
    assert_eq!(
        Situation::after(&shim, &upstream_fences, &[]),
        Situation::fresh()
    );
}

// ---- situations stepped, against situations by pairs

fn every_cell(make: impl Fn(Kind, Kind) -> Strength) -> Table {
    let mut table = Table::filled(Strength::Unordered);
    for earlier in ROWS {
        for later in COLUMNS {
            table.set(earlier, later, make(earlier, later));
        }
    }
    table
}

fn asked_more(situation: &Situation, fence: &Table) -> Situation {
    let need = every_cell(|a, b| match fence.cell(a, b) {
        cell if cell > situation.low.cell(a, b) => cell.max(situation.need.cell(a, b)),
        _ => situation.need.cell(a, b),
    });
    Situation { need, ..*situation }
}

fn settled(situation: &Situation, fence: &Table) -> Situation {
    let need = every_cell(|a, b| match situation.need.cell(a, b) {
        need if need > fence.cell(a, b) => need,
        _ => Strength::Unordered,
    });
    Situation {
        need,
        low: every_cell(|a, b| situation.low.cell(a, b).max(fence.cell(a, b))),
    }
}

fn seen(situation: &Situation, shim: &Shim, kind: Kind) -> Situation {
    let (asks, offers) = (&shim.upstream.ppo, &shim.target.ppo);
    let mut next = *situation;
    for later in COLUMNS {
        let (asked, offered) = (asks.cell(kind, later), offers.cell(kind, later));
        if asked > offered {
            next.need
                .set(kind, later, asked.max(situation.need.cell(kind, later)));
        }
        next.low
            .set(kind, later, offered.min(situation.low.cell(kind, later)));
    }
    next
}

/// The fence that the situation alone calls for.
fn stepped_choice(situation: &Situation, shim: &Shim, kind: Kind) -> Choice {
    if ROWS
        .iter()
        .all(|earlier| situation.need.cell(*earlier, kind) == Strength::Unordered)
    {
        return Choice::Nothing;
    }
    let will_do = |number: &usize| {
        let fence = &shim.target.fences[*number].table;
        ROWS.iter()
            .all(|earlier| fence.cell(*earlier, kind) >= situation.need.cell(*earlier, kind))
    };
    let mut numbers = 0..shim.target.fences.len();
    let taken = match shim.way {
        Way::Sparing => numbers.find(will_do),
        Way::Full => numbers.next_back().filter(will_do),
    };
    taken.map_or(Choice::Refused, Choice::Fence)
}

fn check_stepping(shim: &Shim, stream: &[Operation]) {
    let (mut input, mut output) = (Vec::new(), Vec::new());
    let mut situation = Situation::fresh();
    for operation in stream {
        match *operation {
            Operation::Fence(number) => {
                situation = asked_more(&situation, &shim.upstream.fences[number].table)
            }
            Operation::Access(kind) => {
                let choice = shim.choice(&input, &output, kind);
                assert_eq!(choice, stepped_choice(&situation, shim, kind));
                match choice {
                    Choice::Refused => return,
                    Choice::Nothing => {}
                    Choice::Fence(number) => {
                        situation = settled(&situation, &shim.target.fences[number].table);
                        output.push(Operation::Fence(number));
                    }
                }
                situation = seen(&situation, shim, kind);
                output.push(*operation);
            }
        }
        input.push(*operation);
        assert_eq!(situation, Situation::after(shim, &input, &output));
    }
}

#[test]
fn stepped_situations_are_those_by_pairs() {
    let mut random = Random::new(11);
    for _ in 0..2_000 {
        let (upstream_fences, target_fences) = (random.below(5), random.below(5));
        let upstream = random.model(upstream_fences, 3, 2);
        let target = random.model(target_fences, 4, 1);
        let length = random.below(20);
        let stream = random.stream(upstream_fences, length);
        for way in Way::BOTH {
            check_stepping(&shim(way, &upstream, &target), &stream);
        }
    }
}

// ---- states, by everything that may follow

/// All streams of up to `longest` operations: shorter first, then by operation.
fn all_streams(upstream_fences: usize, longest: usize) -> Vec<Vec<Operation>> {
    let operations = alphabet(upstream_fences);
    let mut all = vec![Vec::new()];
    let mut last = all.clone();
    for _ in 0..longest {
        let longer = |stream: &Vec<Operation>| {
            let stream = stream.clone();
            operations
                .iter()
                .map(move |operation| [&stream[..], &[*operation]].concat())
        };
        last = last.iter().flat_map(longer).collect();
        all.extend(last.iter().cloned());
    }
    all
}

type Further = Vec<Result<Vec<Operation>, u64>>;

/// For every continuation: the further output, or the refusal's place counted
/// from the continuation's start. Nothing for a stream that is refused itself.
fn what_follows(
    shim: &Shim,
    stream: &[Operation],
    continuations: &[Vec<Operation>],
) -> Option<Further> {
    let own = shim.run(&bytes(stream)).ok()?;
    let further = |continuation: &Vec<Operation>| {
        let whole = bytes(&[stream, continuation].concat());
        match shim.run(&whole) {
            Ok(output) => Ok(output[own.len()..].to_vec()),
            Err(refusal) => Err(refusal.place() - stream.len() as u64),
        }
    };
    Some(continuations.iter().map(further).collect())
}

/// States numbered by what follows streams of up to `longest` operations must
/// be those that the machine comes to.
fn check_states(shim: &Shim, longest: usize, continued: usize) {
    let machine = Machine::generate(shim).expect("a small machine");
    let fences = shim.upstream.fences.len();
    let continuations = all_streams(fences, continued);
    let mut arrived: Vec<Further> = Vec::new();
    for stream in all_streams(fences, longest) {
        let Some(follows) = what_follows(shim, &stream, &continuations) else {
            continue;
        };
        let state = arrived
            .iter()
            .position(|known| *known == follows)
            .unwrap_or(arrived.len());
        if state == arrived.len() {
            arrived.push(follows);
        }
        let (_, reached) = machine
            .run(0, &bytes(&stream))
            .expect("accepted by the rule");
        assert_eq!(reached, state);
    }
    assert_eq!(arrived.len(), machine.states.len());
}

#[test]
fn states_of_built_in_pairs_by_everything_that_may_follow() {
    // The last number is the length of the longest first arrival, or more.
    let pairs = [
        (0, 15, 3),
        (1, 15, 3),
        (1, 13, 3),
        (2, 9, 4),
        (3, 14, 3),
        (5, 7, 3),
        (7, 14, 3),
        (8, 15, 3),
    ];
    for (upstream, target, longest) in pairs {
        let (upstream, target) = (builtin_model(upstream), builtin_model(target));
        for way in Way::BOTH {
            check_states(&shim(way, &upstream, &target), longest, 3);
        }
    }
}

#[test]
fn states_of_random_models_by_everything_that_may_follow() {
    let mut random = Random::new(12);
    let mut checked = 0;
    while checked < 40 {
        let (upstream_fences, target_fences) = (random.below(2), random.below(3));
        let upstream = random.model(upstream_fences, 8, 8);
        let target = random.model(target_fences, 8, 2);
        let shim = shim(Way::BOTH[checked % 2], &upstream, &target);
        // Four states are reached within three operations, and told apart within three.
        let few =
            Machine::generate(&shim).is_ok_and(|machine| (2..=4).contains(&machine.states.len()));
        if few {
            check_states(&shim, 3, 3);
            checked += 1;
        }
    }
}

// ---- machine against rule

fn check_runs(machine: &Machine, shim: &Shim, random: &mut Random) {
    let (first, second) = (random.below(12), random.below(12));
    let before = bytes(&random.stream(machine.upstream_fences, first));
    let after = bytes(&random.stream(machine.upstream_fences, second));
    let whole = [&before[..], &after[..]].concat();
    let by_rule = shim.run(&whole);
    assert_eq!(machine.run(0, &whole).map(|(output, _)| output), by_rule);
    let Ok((own, state)) = machine.run(0, &before) else {
        return;
    };
    let continued = match machine.run(state, &after) {
        Ok((further, _)) => Ok([own, further].concat()),
        Err(Refusal::NoFenceWillDo(index)) => Err(Refusal::NoFenceWillDo(before.len() + index)),
        Err(other) => panic!("{other:?}"),
    };
    assert_eq!(continued, by_rule);
}

fn check_machine(upstream: &Model, target: &Model, random: &mut Random) {
    for way in Way::BOTH {
        let shim = shim(way, upstream, target);
        if let Ok(machine) = Machine::generate(&shim) {
            for _ in 0..20 {
                check_runs(&machine, &shim, random);
            }
        }
    }
}

#[test]
fn machines_answer_like_the_rule() {
    let mut random = Random::new(13);
    for upstream in 0..16 {
        for target in 0..16 {
            check_machine(
                &builtin_model(upstream),
                &builtin_model(target),
                &mut random,
            );
        }
    }
    for _ in 0..200 {
        let (upstream_fences, target_fences) = (random.below(4), random.below(4));
        let upstream = random.model(upstream_fences, 4, 4);
        let target = random.model(target_fences, 4, 1);
        check_machine(&upstream, &target, &mut random);
    }
}
