//! Publishes are what their sort says, a run comes upon every sort and every
//! outcome, and one that does not is told.

#[path = "common/full.rs"]
mod full;

use compare::case::{After, Case, Op};
use compare::plan;
use compare::publishes::{
    outcome, OfSpare, Outcome, Pair, Publishes, Sort, Spare, PAIRS, SORTS, SPARES,
};
use compare::random::Random;
use compare::run::{Report, Run, FULL_RUN};
use compare::sides::plain;
use full::{a_failure, full_report, publishes_but};
use lerc2::raw;
use second::is_valid;
use std::collections::HashSet;
use std::process::Command;

/// The publishes of some blobs, with the staging that they come from.
fn publishes(blobs: u64) -> Vec<(Case, Case)> {
    let mut found = Vec::new();
    let mut cases = Vec::new();
    for blob in 0..blobs {
        plan::calls(&mut Random::of(3, blob), &mut cases);
        let mut stage = None;
        for case in cases.drain(..) {
            match (case.op, case.sort) {
                (Op::Stage, _) => stage = Some(case),
                (Op::Publish, Some(_)) => found.push((stage.clone().unwrap(), case)),
                _ => {}
            }
        }
    }
    found
}

/// What the plain reader stages of a publish's inputs, whatever its record has.
fn staged(case: &Case) -> After {
    plain(&Case {
        op: Op::Stage,
        staged: vec![0; raw::STAGED],
        place: vec![0],
        ..case.clone()
    })
}

/// The parts of a publish that differ from what its staging left.
fn changed(stage: &Case, case: &Case) -> HashSet<&'static str> {
    let left = plain(stage).lent;
    let parts = [
        ("blob", left.blob != case.blob),
        ("reuse", left.reuse != case.reuse),
        ("staged", left.staged != case.staged),
        ("kept", left.kept != case.kept),
        ("spare", left.spare != case.spare),
        ("list", left.list != case.list),
        ("image", left.image != case.image),
    ];
    let differ = parts.into_iter().filter(|part| part.1);
    differ.map(|part| part.0).collect()
}

/// What may differ by sort, where staging accepted; the blob may too where an
/// answer, a spare or a list is wrong.
fn may_differ(sort: Sort) -> &'static [&'static str] {
    match sort {
        Sort::AsStaged => &[],
        Sort::Again => &["image", "kept"],
        Sort::Filled => &["image"],
        Sort::Forged | Sort::NoAnswer | Sort::Refused => &["staged", "blob"],
        Sort::Stale => &["staged", "spare", "list", "blob"],
        Sort::Spare => &["spare", "blob"],
        Sort::List | Sort::LastStart => &["list", "blob"],
        Sort::Unseen => &["spare", "list", "kept"],
        Sort::Kept | Sort::KeptCount => &["kept"],
        Sort::Reuse => &["reuse"],
        Sort::Blob => &["blob"],
        Sort::Short => &["staged", "kept", "spare", "list", "image"],
    }
}

#[test]
fn publishes_are_what_their_sort_says() {
    for (stage, case) in publishes(3_000) {
        let sort = case.sort.unwrap();
        if plain(&stage).answer != 0 {
            continue;
        }
        let changed = changed(&stage, &case);
        let allowed = may_differ(sort);
        assert!(
            changed.iter().all(|part| allowed.contains(part)),
            "{sort:?}: {changed:?}"
        );
        let has = |part| changed.contains(part);
        match sort {
            Sort::Forged | Sort::NoAnswer => assert!(has("staged")),
            Sort::Stale => assert!(has("staged") || has("spare") || has("list")),
            Sort::Spare => assert!(has("spare")),
            Sort::List | Sort::LastStart => assert!(has("list")),
            Sort::Kept | Sort::KeptCount => assert!(has("kept") && case.reuse),
            Sort::Reuse => assert!(has("reuse")),
            Sort::Filled => assert!(!has("kept")),
            _ => {}
        }
    }
}

/// Without a change of the blob the outcome is the one that the sort is for.
#[test]
fn publishes_come_to_what_their_sort_says() {
    for (stage, case) in publishes(3_000) {
        let (after, sort) = (plain(&case), case.sort.unwrap());
        let outcome = outcome(&case, &after);
        let is_room = outcome == Outcome::NoRoom;
        if plain(&stage).answer != 0 || is_room || changed(&stage, &case).contains("blob") {
            continue;
        }
        let reused = plain(&stage).lent.staged[14] == 1;
        let expected: &[Outcome] = match sort {
            Sort::AsStaged | Sort::Again | Sort::Filled | Sort::Unseen => &[Outcome::Accepted],
            Sort::Spare if reused => &[Outcome::Accepted],
            Sort::Spare | Sort::List | Sort::LastStart => &[Outcome::NotStaged],
            Sort::Forged | Sort::NoAnswer | Sort::Stale | Sort::Refused => &[Outcome::NotStaged],
            Sort::KeptCount => &[Outcome::Own],
            Sort::Reuse if reused => &[Outcome::Own],
            Sort::Reuse => &[Outcome::Accepted],
            Sort::Kept => &[Outcome::Accepted, Outcome::NotStaged, Outcome::Own],
            // The damage may have left the bytes as they were.
            Sort::Blob => &[Outcome::Accepted],
            Sort::Short => &[],
        };
        assert!(expected.contains(&outcome), "{sort:?}: {outcome:?}");
        if outcome != Outcome::Accepted {
            let mut lent = after.lent;
            lent.place.clone_from(&case.place);
            assert!(lent == case, "{sort:?}: a refusal has written");
        }
    }
}

/// A forged answer has one number changed, to one that its field holds; what is
/// no answer has one that none does.
#[test]
fn forged_answers() {
    let mut forged = [0; raw::STAGED];
    let mut none = [0; raw::STAGED];
    for (stage, case) in publishes(3_000) {
        let left = plain(&stage);
        let counts = match case.sort {
            Some(Sort::Forged) => &mut forged,
            Some(Sort::NoAnswer) => &mut none,
            _ => continue,
        };
        if left.answer != 0 {
            continue;
        }
        let pairs = left.lent.staged.iter().zip(&case.staged);
        let differ = pairs.enumerate().filter(|(_, (a, b))| a != b);
        let at: Vec<usize> = differ.map(|(at, _)| at).collect();
        assert_eq!(at.len(), 1, "{at:?}");
        let number = case.staged[at[0]];
        let held = match at[0] {
            0..=6 | 10 => number >> 32 == 0,
            13 => number < 5,
            14 => matches!(number, 1 | 2),
            _ => true,
        };
        assert_eq!(held, case.sort == Some(Sort::Forged), "{at:?}: {number}");
        counts[at[0]] += 1;
    }
    assert!(forged.iter().all(|&n| n > 20), "{forged:?}");
    for at in [0, 1, 2, 3, 4, 5, 6, 10, 13, 14] {
        assert!(none[at] > 20, "{none:?}");
    }
}

/// Kept masks with their count right, and with another. A few change what
/// staging gives.
#[test]
fn changed_kept_masks() {
    let mut moved = 0;
    for (stage, case) in publishes(6_000) {
        let header = second::read_header(&case.blob);
        let (Ok(header), Some(sort)) = (header, case.sort) else {
            continue;
        };
        if !matches!(sort, Sort::Kept | Sort::KeptCount) {
            continue;
        }
        let valid = |mask: &[u8]| (0..header.pixels()).filter(|&p| is_valid(mask, p)).count();
        let is_right = valid(&case.kept) == header.valid as usize;
        assert_eq!(is_right, sort == Sort::Kept);
        let left = plain(&stage).lent.staged;
        let other = staged(&case);
        if other.answer == 0 && other.lent.staged != left[..raw::STAGED] {
            assert_eq!(outcome(&case, &plain(&case)), Outcome::NotStaged);
            moved += 1;
        }
    }
    assert!(moved > 0);
}

#[test]
fn a_run_comes_upon_every_sort() {
    let run = Run {
        seed: 2,
        from: 0,
        calls: FULL_RUN,
        failures: 1,
    };
    let report = run.go(plain, plain);
    let publishes = &report.publishes;
    for (sort, name, outcomes) in SORTS {
        for &outcome in outcomes {
            let count = publishes.of(sort, outcome);
            assert!(count >= 20, "{name}, {outcome:?}: {count}");
        }
    }
    for (spare, name, outcomes) in SPARES {
        for &came in outcomes {
            let count = publishes.of_spare(spare, came);
            assert!(count >= 200, "{name}, {came:?}: {count}");
        }
    }
    for (pair, name) in PAIRS {
        let count = publishes.of_pair(pair);
        assert!(count >= 1_000, "{name}: {count}");
    }
    // A third of all calls, and some more.
    assert!(publishes.disturbed() * 100 > report.table.total() * 36);
    assert_eq!(report.verdict(), Ok(true));
}

/// A block that is refused comes before the spare, whatever mask it is.
#[test]
fn a_spare_and_a_block() {
    let mut found = HashSet::new();
    for (_, case) in publishes(3_000) {
        let after = plain(&case);
        let mut counted = Publishes::default();
        counted.count(&case, &after);
        for spare in [Spare::Runs, Spare::AllValid, Spare::Reused] {
            if counted.of_spare(spare, OfSpare::Block) > 0 {
                assert!(matches!(after.answer, 1 | 8) && after.place() > Some(70));
                found.insert(spare as usize);
            }
        }
    }
    assert_eq!(found.len(), 3);
}

#[test]
fn the_order_of_the_tables() {
    for (n, (sort, ..)) in SORTS.into_iter().enumerate() {
        assert_eq!(sort as usize, n);
    }
    for (n, (spare, ..)) in SPARES.into_iter().enumerate() {
        assert_eq!(spare as usize, n);
    }
    for (n, (pair, _)) in PAIRS.into_iter().enumerate() {
        assert_eq!(pair as usize, n);
    }
    assert_eq!(PAIRS[2].0, Pair::Refused);
}

/// Which names are left out, and what is said of it.
type LeftOut = (fn(&str) -> bool, &'static str);

#[test]
fn a_full_run_that_leaves_a_sort_out_is_told() {
    let left_out: [LeftOut; 3] = [
        (
            |name| name == "list changed",
            "list changed: not staged (3)",
        ),
        (
            |name| name == "spare changed: runs",
            "spare changed: runs: a block refused",
        ),
        (
            |name| name == "refused",
            "stage and publish in one: refused",
        ),
    ];
    for (left_out, said) in left_out {
        let without = |calls| Report {
            publishes: publishes_but(calls, left_out),
            ..full_report(calls)
        };
        let mut report = without(FULL_RUN);
        let verdict = report.verdict().unwrap_err();
        assert!(verdict.contains(said), "{verdict}");
        report.failures.push(a_failure());
        assert_eq!(report.verdict(), Ok(false));
        assert_eq!(without(FULL_RUN - 1).verdict(), Ok(true));
    }
    for (_, name, _) in SORTS {
        let report = full_report(FULL_RUN);
        assert!(report.publishes.text().contains(&format!("| {name} |")));
    }
}

/// A third of all calls must publish something else than was staged.
#[test]
fn a_full_run_with_few_disturbed_publishes_is_told() {
    let few = |calls| Report {
        publishes: publishes_but(0, |_| false),
        ..full_report(calls)
    };
    let verdict = few(FULL_RUN).verdict().unwrap_err();
    assert!(verdict.contains("less than one in 3"), "{verdict}");
    assert_eq!(few(FULL_RUN - 1).verdict(), Ok(true));
}

/// The program prints the tables.
#[test]
fn the_program_shows_the_sorts() {
    let run = Command::new(env!("CARGO_BIN_EXE_compare"))
        .args(["run", "--seed", "1", "--calls", "20000"])
        .output()
        .unwrap();
    assert!(run.status.success());
    let text = String::from_utf8(run.stdout).unwrap();
    for (_, name, _) in SORTS {
        let row = format!("\n| {name} | ");
        assert_eq!(text.matches(&row).count(), 1, "{name}");
    }
}
