//! A whole run: lists of calls, pairs of offices, days.

use crate::engine::{DayProgram, Engine};
use crate::harness::before::run_before;
use crate::harness::choices::run_choices;
use crate::harness::closes::run_closes;
use crate::harness::compare::Comparison;
use crate::harness::days::{compare_fixed_days, compare_random_day};
use crate::harness::editions::{run_editions, run_large};
use crate::harness::fixed::run_fixed;
use crate::harness::lists::run_list;
use crate::harness::offices::run_offices;
use crate::harness::older::run_older;
use crate::harness::orders::run_orders;
use crate::harness::shares::{run_pairs, BATCH};
use crate::harness::spreads::{run_forgotten, run_spreads};
use crate::harness::swaps::run_swaps;
use crate::harness::tally::Tally;
use crate::rng::Rng;

pub struct Plan {
    pub seed: u64,
    /// Whether the comparisons that are the same in every run come first.
    pub fixed: bool,
    /// Lists are run until so many of their calls are compared.
    pub calls: u64,
    pub offices: u64,
    /// Pairs of which the share is asked for, a hundred at a time.
    pub pairs: u64,
    pub older: u64,
    /// Tables of no opening that are closed, each with a list that goes on from it.
    pub closes: u64,
    /// Lists that are also given to the calls as they were before tables had an owed byte.
    pub before: u64,
    /// Tables from before version 4.0.0.
    pub choices: u64,
    /// Small sheets that are stepped in every order, each with larger ones.
    pub orders: u64,
    /// Runs of swaps alone.
    pub swaps: u64,
    /// Lists of which each call is made in both editions.
    pub editions: u64,
    /// Lists of which each call is made with spread 2, with spread 0 and with others.
    pub spreads: u64,
    /// Tables of version 4.3.0.
    pub forgotten: u64,
    /// Large sheets of both editions.
    pub large: u64,
    pub days: u64,
    /// Slices are lent in blocks of their own, for a run under a memory checker.
    pub alone: bool,
    /// Only this part of the run, as a failure names it.
    pub only: Option<u64>,
    /// Print the number of each part before it is run, for an engine that ends the program.
    pub trace: bool,
}

/// Each kind of part has its own numbers, so that one part can be run alone.
const OFFICES: u64 = 1 << 40;
const DAYS: u64 = 2 << 40;
const FIXED: u64 = 3 << 40;
const FIXED_DAYS: u64 = FIXED + 1;
const PAIRS: u64 = 4 << 40;
const OLDER: u64 = 5 << 40;
const CLOSES: u64 = 6 << 40;
const BEFORE: u64 = 7 << 40;
const CHOICES: u64 = 8 << 40;
const ORDERS: u64 = 9 << 40;
const SWAPS: u64 = 10 << 40;
const EDITIONS: u64 = 11 << 40;
const LARGE: u64 = 12 << 40;
const SPREADS: u64 = 13 << 40;
const FORGOTTEN: u64 = 14 << 40;

/// Everything compared, or the first difference.
pub fn run(
    plan: &Plan,
    engine: &mut dyn Engine,
    mut day: Option<&mut dyn DayProgram>,
) -> Result<Tally, String> {
    let mut c = Comparison::new(engine, Rng::new(0));
    c.alone = plan.alone;
    if let Some(part) = plan.only {
        run_part(plan, part, &mut c, &mut day)?;
        return Ok(c.tally);
    }
    if plan.fixed {
        run_part(plan, FIXED, &mut c, &mut day)?;
    }
    let batches = plan.pairs.div_ceil(BATCH);
    let kinds = [
        (OFFICES, plan.offices),
        (PAIRS, batches),
        (OLDER, plan.older),
        (CLOSES, plan.closes),
        (BEFORE, plan.before),
        (CHOICES, plan.choices),
        (ORDERS, plan.orders),
        (SWAPS, plan.swaps),
        (EDITIONS, plan.editions),
        (LARGE, plan.large),
        (SPREADS, plan.spreads),
        (FORGOTTEN, plan.forgotten),
    ];
    for part in kinds.iter().flat_map(|&(first, count)| first..first + count) {
        run_part(plan, part, &mut c, &mut day)?;
    }
    let (mut list, others) = (0, c.tally.calls());
    while c.tally.calls() < others + plan.calls {
        run_part(plan, list, &mut c, &mut day)?;
        list += 1;
    }
    if day.is_some() && plan.days > 0 {
        run_days(plan, &mut c, &mut day)?;
    }
    match c.tally.never_met() {
        missing if missing.is_empty() => Ok(c.tally),
        missing => Err(format!("never given: {}\n{}", missing.join(", "), c.tally)),
    }
}

fn run_days(
    plan: &Plan,
    c: &mut Comparison,
    day: &mut Option<&mut dyn DayProgram>,
) -> Result<(), String> {
    if plan.fixed {
        run_part(plan, FIXED_DAYS, c, day)?;
    }
    (0..plan.days).try_for_each(|number| run_part(plan, DAYS + number, c, day))
}

fn run_part(
    plan: &Plan,
    part: u64,
    c: &mut Comparison,
    day: &mut Option<&mut dyn DayProgram>,
) -> Result<(), String> {
    let seed = plan.seed;
    if plan.trace {
        println!("part {part}");
    }
    c.rng = Rng::part(seed, part);
    let result = match (part, day) {
        (FIXED, _) => run_fixed(c),
        (FORGOTTEN.., _) => run_forgotten(c),
        (SPREADS.., _) => run_spreads(c),
        (LARGE.., _) => run_large(c),
        (EDITIONS.., _) => run_editions(c),
        (SWAPS.., _) => run_swaps(c),
        (ORDERS.., _) => run_orders(c, part - ORDERS),
        (CHOICES.., _) => run_choices(c),
        (BEFORE.., _) => run_before(c),
        (CLOSES.., _) => run_closes(c),
        (OLDER.., _) => run_older(c),
        (PAIRS.., _) => run_pairs(c),
        (FIXED_DAYS, Some(program)) => compare_fixed_days(*program, &mut c.tally),
        (DAYS.., Some(program)) => compare_random_day(*program, &mut c.rng, &mut c.tally),
        (DAYS.., None) => Err("no day program is given".to_string()),
        (OFFICES.., _) => run_offices(c),
        // A fifth of the lists.
        _ => run_list(c, part % 5 == 0),
    };
    let calls = c.tally.calls();
    result.map_err(|e| format!("{e}\nafter {calls} calls; alone: --seed {seed} --part {part}"))
}

#[cfg(test)]
mod tests {
    use super::*;
    use crate::harness::orders::run_small;
    use crate::harness::sequences::run_sequences;
    use crate::mock::{Mock, MockDay, Wrong, WrongDay};

    const SHORT: Plan = Plan {
        seed: 5,
        fixed: false,
        calls: 60_000,
        offices: 10,
        pairs: 0,
        older: 0,
        closes: 0,
        before: 0,
        choices: 0,
        orders: 0,
        swaps: 0,
        editions: 0,
        spreads: 0,
        forgotten: 0,
        large: 0,
        days: 0,
        alone: false,
        only: None,
        trace: false,
    };

    fn try_mock(plan: &Plan, wrong: Wrong) -> Result<Tally, String> {
        run(plan, &mut Mock(wrong), Some(&mut Mock(Wrong::Nothing)))
    }

    #[test]
    fn the_model_agrees_with_another_machine() {
        let plan = Plan {
            fixed: true,
            calls: 15_000,
            offices: 100,
            pairs: 2_000,
            older: 300,
            closes: 300,
            before: 300,
            choices: 300,
            orders: 5,
            swaps: 300,
            editions: 200,
            spreads: 100,
            forgotten: 200,
            large: 4,
            days: 100,
            ..SHORT
        };
        let tally = try_mock(&plan, Wrong::Nothing).unwrap();
        assert!(tally.calls() >= 50_000);
        assert!(tally.orders.tables > 10_000 && tally.orders.opened_tables > 3_000);
        assert_eq!((tally.pairs, tally.older_tables, tally.closed_tables), (2_000, 300, 300));
        assert_eq!((tally.before_lists, tally.strict_tables), (300, 300));
        assert!(tally.swap_runs == 300 && tally.run_swaps > 3_000);
        assert!(
            tally.before_tables > 500 && tally.before_steps > 100 && tally.before_readings > 2_000
        );
        assert_eq!(tally.lists_from_tables, tally.lists.div_ceil(5));
        assert!(tally.random_pairs > 600 && tally.large_sheets == 4);
        assert!(tally.edition_refusals > 100 && tally.random_spread_pairs > 200);
        assert!(tally.other_spreads > 200 && tally.other_spreads_refused > 20);
        assert!(tally.forgotten_tables == 200 && tally.forgotten_others > 50);
        assert_eq!(tally.random_days, 100);
        assert!(tally.damaged_days > 10);
    }

    /// A run that finds no difference fails if a refusal was never given.
    #[test]
    fn a_run_that_misses_a_refusal_fails() {
        let plan = Plan { calls: 40, offices: 0, ..SHORT };
        let found = try_mock(&plan, Wrong::Nothing).unwrap_err();
        assert!(found.starts_with("never given: "), "{found}");
    }

    /// Without guards the same calls are made, and wrong engines are found too.
    #[test]
    fn slices_can_be_lent_alone() {
        let plan = Plan { fixed: true, alone: true, calls: 500, offices: 3, ..SHORT };
        let alone = try_mock(&plan, Wrong::Nothing).unwrap();
        let guarded = try_mock(&Plan { alone: false, ..plan }, Wrong::Nothing).unwrap();
        assert_eq!(alone.given, guarded.given);
        let found = try_mock(&Plan { alone: true, ..SHORT }, Wrong::AskChangesSheet).unwrap_err();
        assert!(found.contains("--seed 5 --part"), "{found}");
    }

    /// Each wrong engine is found by random calls alone.
    #[test]
    fn wrong_engines_are_found() {
        for &wrong in Wrong::ALL.iter().filter(|wrong| !Wrong::LARGE.contains(wrong)) {
            let found = try_mock(&SHORT, wrong).err().unwrap_or_default();
            assert!(found.contains("--seed 5 --part"), "{wrong:?} was not found: {found}");
            println!("{wrong:?}: {}", found.lines().last().unwrap());
        }
    }

    /// Wrong shares are found by pairs alone too.
    #[test]
    fn wrong_shares_are_found() {
        let plan = Plan { calls: 0, offices: 0, pairs: 500, ..SHORT };
        for wrong in [
            Wrong::RoundsTowardZero,
            Wrong::ShareWrapsAt64Bits,
            Wrong::ShareInFloatingPoint,
            Wrong::ShareOfRoundedFirst,
            Wrong::ResultsInOlderRange,
        ] {
            let found = try_mock(&plan, wrong).unwrap_err();
            assert!(found.contains("--seed 5 --part"), "{wrong:?}: {found}");
        }
    }

    #[test]
    fn wrong_readings_of_older_tables_are_found() {
        let plan = Plan { calls: 0, offices: 0, older: 300, ..SHORT };
        for wrong in [Wrong::RefusesStoredOut, Wrong::WorksOutStoredOut] {
            let found = try_mock(&plan, wrong).unwrap_err();
            assert!(found.contains("--seed 5 --part"), "{wrong:?}: {found}");
        }
    }

    /// A choice that is wrong in its value is found by tables from before version 4.0.0 alone.
    #[test]
    fn wrong_readings_after_the_choice_of_before_are_found() {
        let plan = Plan { calls: 0, offices: 0, choices: 300, ..SHORT };
        let values = [Wrong::ChoiceStrict, Wrong::ChoiceStrictInRuns, Wrong::ChoiceStrictInLookUps];
        for wrong in values.into_iter().chain([Wrong::RefusesStoredOut, Wrong::WorksOutStoredOut]) {
            let found = try_mock(&plan, wrong).unwrap_err();
            assert!(found.contains("--seed 5 --part"), "{wrong:?}: {found}");
        }
    }

    /// Wrong closes are found by closes of any table alone, if they are wrong where nothing is refused.
    #[test]
    fn wrong_closes_are_found() {
        let plan = Plan { calls: 0, offices: 0, closes: 1_000, ..SHORT };
        let refusing = [
            Wrong::CloseTakesAnyIndex,
            Wrong::CloseTakesBrokenFigures,
            Wrong::CloseSays10Before9,
            Wrong::RefusedCloseClearsMarks,
        ];
        for wrong in Wrong::closes().filter(|wrong| !refusing.contains(wrong)) {
            let found = try_mock(&plan, wrong).unwrap_err();
            assert!(found.contains("--seed 5 --part"), "{wrong:?}: {found}");
        }
    }

    /// Wrong swaps are found by runs of swaps alone, if they are wrong on bytes that are in form.
    #[test]
    fn wrong_swaps_are_found() {
        let plan = Plan { calls: 0, offices: 0, swaps: 1_000, ..SHORT };
        for wrong in Wrong::swaps().filter(|&wrong| wrong != Wrong::SwapSays18BeforeTheTable) {
            let found = try_mock(&plan, wrong).unwrap_err();
            assert!(found.contains("--seed 5 --part"), "{wrong:?}: {found}");
        }
    }

    /// What is wrong on large sheets alone is found by runs on these.
    #[test]
    fn wrong_large_sheets_are_found() {
        let plan = Plan { calls: 0, offices: 0, large: 60, ..SHORT };
        for &wrong in Wrong::LARGE {
            let found = try_mock(&plan, wrong).unwrap_err();
            assert!(found.contains("--seed 5 --part"), "{wrong:?}: {found}");
            println!("{wrong:?}: {}", found.lines().last().unwrap());
        }
    }

    /// Wrong spreads of edition 1 are found by lists with spread 2 beside others alone.
    #[test]
    fn wrong_spreads_are_found() {
        let plan = Plan { calls: 0, offices: 0, spreads: 1_500, ..SHORT };
        let is_first = |wrong: &&Wrong| format!("{wrong:?}").starts_with("First");
        let others = [Wrong::OpeningClearsSpread2, Wrong::CallClearsSpread2];
        let first = Wrong::SPREADS.iter().filter(is_first).chain(&others);
        for &wrong in first.chain(&[Wrong::RefusesStoredSpread2]) {
            let found = try_mock(&plan, wrong).unwrap_err();
            assert!(found.contains("--seed 5 --part"), "{wrong:?}: {found}");
        }
    }

    /// What reads or refuses tables of version 4.3.0 otherwise is found by these alone.
    #[test]
    fn wrong_readings_of_forgotten_figures_are_found() {
        let plan = Plan { calls: 0, offices: 0, forgotten: 300, ..SHORT };
        for wrong in [
            Wrong::FirstSpread2Forgets,
            Wrong::FirstSpread2TellsNothing,
            Wrong::FirstRefusesSpread2,
            Wrong::RefusesStoredSpread2,
            Wrong::RefusesUnowedNotice,
        ] {
            let found = try_mock(&plan, wrong).unwrap_err();
            assert!(found.contains("--seed 5 --part"), "{wrong:?}: {found}");
        }
    }

    /// A day program that is wrong about the length of its files is found by random days alone.
    #[test]
    fn wrong_day_programs_are_found() {
        let plan = Plan { calls: 0, offices: 0, days: 1_000, ..SHORT };
        for &wrong in WrongDay::ALL {
            let found = run(&plan, &mut Mock(Wrong::Nothing), Some(&mut MockDay(wrong)));
            let found = found.err().unwrap_or_default();
            assert!(found.contains("--seed 5 --part"), "{wrong:?} was not found");
        }
    }

    /// Wrong steps are found by orders alone: by those of small sheets, and by those of an office.
    #[test]
    fn wrong_steps_are_found() {
        let plan = Plan { calls: 0, offices: 0, orders: 4, ..SHORT };
        for wrong in Wrong::STEPS {
            let found = try_mock(&plan, wrong).unwrap_err();
            assert!(found.contains("--seed 5 --part"), "{wrong:?}: {found}");
            let mut mock = Mock(wrong);
            let mut c = Comparison::new(&mut mock, Rng::part(5, 0));
            let found = (0..4).find_map(|part| run_small(&mut c, part).err());
            assert!(found.is_some(), "{wrong:?} was not found on small sheets");
            let found = (0..150).find_map(|_| run_sequences(&mut c).err());
            assert!(found.is_some(), "{wrong:?} was not found by an office");
        }
    }

    /// The part that a failure names fails alone too.
    #[test]
    fn a_part_can_be_run_again() {
        let found = try_mock(&SHORT, Wrong::DeferIgnoresNotice).unwrap_err();
        let part = found.rsplit("--part ").next().unwrap().parse().unwrap();
        let plan = Plan { only: Some(part), ..SHORT };
        let again = run(&plan, &mut Mock(Wrong::DeferIgnoresNotice), None).unwrap_err();
        assert_eq!(found.lines().next(), again.lines().next());
    }

    struct Silent;

    impl DayProgram for Silent {
        fn run(&mut self, _: Option<&[u8]>, _: Option<&[u8]>) -> Result<Vec<u8>, String> {
            Ok(vec![])
        }
    }

    #[test]
    fn a_wrong_day_program_is_found() {
        let plan = Plan { calls: 0, days: 10, ..SHORT };
        let found = run(&plan, &mut Mock(Wrong::Nothing), Some(&mut Silent)).unwrap_err();
        assert!(found.contains("--seed 5 --part"), "{found}");
    }

    #[cfg(engine)]
    #[test]
    fn the_linked_engine_agrees() {
        let plan = Plan {
            fixed: true,
            calls: 20_000,
            offices: 100,
            pairs: 2_000,
            older: 300,
            closes: 300,
            before: 300,
            choices: 300,
            orders: 5,
            swaps: 300,
            editions: 200,
            spreads: 100,
            forgotten: 200,
            large: 4,
            ..SHORT
        };
        if let Err(difference) = run(&plan, &mut crate::ffi::Linked, None) {
            panic!("{difference}");
        }
    }
}
