//! Compares the core, through its C interface and through the safe wrapper, with the independent
//! model: after every call every field of the answer, every place of the state and of the lent arrays,
//! and the guards beside them.
//!
//! `GRAIN_DAMAGE=n` runs the comparison with the n-th number of the model off by one, to see it
//! fail. `GRAIN_SEED=n` takes another seed.

mod averages;
mod calendars;
mod charts;
mod damaged;
mod encode;
mod history;
mod kinds;
mod lent;
mod lists;
mod lots;
mod markets;
mod met;
mod orders;
mod plots;
mod readings;
mod rng;
mod sound;
mod stations;
mod texts;
mod unsound;

use std::env;
use std::io::Write;

use grain_model::Rules;
use lent::Difference;
use stations::Trial;

/// How much is compared.
struct Extent {
    station_lists: usize,
    /// Each sheet also with its samples in another order, each lot in other records too.
    orders: bool,
    chart_lists: usize,
    /// The pairs of the charted sets whose means are rounded in every way.
    pairs: i64,
    texts: usize,
    long_texts: usize,
    handed_in: usize,
    /// Each of a station and of a chart.
    checks: usize,
    random_floats: usize,
    float_step: usize,
    calendar_step: usize,
    working_days: usize,
    /// Holidays on all days, and on all but one.
    all_holidays: bool,
    lots: usize,
    /// Lots of far too many records.
    long_lots: bool,
}

const FULL: Extent = Extent {
    station_lists: 8_000,
    orders: true,
    chart_lists: 5_000,
    pairs: 5,
    texts: 30_000,
    long_texts: 300,
    handed_in: 8_000,
    checks: 1_000_000,
    random_floats: 100,
    float_step: 1,
    calendar_step: 1,
    working_days: 100_000,
    all_holidays: true,
    lots: 40_000,
    long_lots: true,
};

/// Enough to notice any one number off by one.
const SMALL: Extent = Extent {
    station_lists: 600,
    orders: false,
    chart_lists: 300,
    pairs: 1,
    texts: 400,
    long_texts: 2,
    handed_in: 600,
    checks: 5_000,
    random_floats: 1,
    float_step: 100,
    calendar_step: 97,
    working_days: 1_000,
    all_holidays: false,
    lots: 300,
    long_lots: false,
};

/// Says something past the test harness's capture.
fn say(line: &str) {
    let _ = writeln!(std::io::stdout().lock(), "{line}");
}

/// All comparisons.
fn compare(trial: &mut Trial, extent: &Extent) -> Result<(), Difference> {
    trial.orders = extent.orders;
    compare_calendar(trial, extent)?;
    compare_lots(trial, extent)?;
    compare_charts(trial, extent)?;
    lists::openings(trial)?;
    readings::sample(trial, extent.random_floats, extent.float_step)?;
    for _ in 0..extent.station_lists {
        lists::list(trial, 60)?;
    }
    for _ in 0..extent.handed_in {
        unsound::unsound_station(trial)?;
        unsound::kinds_apart(trial)?;
        unsound::spare_places(trial)?;
        unsound::any_station(trial)?;
        unsound::unsound_chart(trial)?;
        unsound::spare_chart_places(trial)?;
        unsound::any_chart(trial)?;
    }
    for round in 0..extent.handed_in {
        unsound::one_place(trial, round % encode::STATION)?;
        unsound::one_chart_place(trial, round % encode::CHART)?;
    }
    for _ in 0..extent.checks {
        sound::single(trial)?;
    }
    for _ in 0..extent.texts {
        texts::single(trial)?;
    }
    for _ in 0..extent.long_texts {
        texts::long(trial)?;
    }
    texts::particular(trial)?;
    texts::longest(trial)
}

fn compare_calendar(trial: &mut Trial, extent: &Extent) -> Result<(), Difference> {
    calendars::days(trial, extent.calendar_step)?;
    calendars::dates(trial, extent.calendar_step)?;
    calendars::particular(trial)?;
    for _ in 0..extent.working_days {
        calendars::single(trial)?;
    }
    match extent.all_holidays {
        true => calendars::longest(trial),
        false => Ok(()),
    }
}

fn compare_lots(trial: &mut Trial, extent: &Extent) -> Result<(), Difference> {
    lots::particular(trial)?;
    for _ in 0..extent.lots {
        lots::single(trial)?;
    }
    match extent.long_lots {
        true => lots::longest(trial),
        false => Ok(()),
    }
}

fn compare_charts(trial: &mut Trial, extent: &Extent) -> Result<(), Difference> {
    charts::particular(trial)?;
    charts::roundings(trial, extent.pairs)?;
    for _ in 0..extent.chart_lists {
        charts::list(trial, 20)?;
    }
    Ok(())
}

const SEED: u64 = 0x6772_6169_6E01;

#[test]
fn every_call_agrees() {
    let mut rules = Rules::in_force();
    if let Ok(place) = env::var("GRAIN_DAMAGE") {
        let place: usize = place.parse().expect("GRAIN_DAMAGE is a number from 1");
        let (name, damaged) = damaged::rules(place - 1, 1).expect("no such number");
        say(&format!("the model is damaged: {name}"));
        rules = damaged;
    }
    let seed = match env::var("GRAIN_SEED") {
        Ok(seed) => seed.parse().expect("GRAIN_SEED is a number"),
        Err(_) => SEED,
    };
    say(&format!("seed {seed}"));
    let mut trial = Trial::new(rules, seed);
    if let Err(Difference(difference)) = compare(&mut trial, &FULL) {
        panic!("after {} calls: {difference}", trial.met.calls());
    }
    let never = trial.met.report();
    assert!(never.is_empty(), "never met: {never:?}");
    assert!(trial.met.calls() >= 200_000, "too few calls");
}

/// The comparison notices every number of the model being one too high or too low, and every wrong model.
#[test]
fn a_damaged_model_is_caught() {
    let mut missed = Vec::new();
    let mut caught = 0;
    let mut tried = |name: String, rules, wrong| {
        let mut trial = Trial::new(rules, SEED);
        trial.wrong = wrong;
        match compare(&mut trial, &SMALL) {
            Ok(()) => missed.push(name),
            Err(_) => caught += 1,
        }
    };
    for by in [1, -1] {
        for place in 0.. {
            let Some((name, rules)) = damaged::rules(place, by) else {
                break;
            };
            tried(name, rules, None);
        }
    }
    for wrong in damaged::WRONG {
        tried(format!("{wrong:?}"), wrong.rules(), Some(wrong));
    }
    say(&format!("damaged models caught: {caught}"));
    assert!(missed.is_empty(), "not noticed: {missed:?}");
    assert!(compare(&mut Trial::new(Rules::in_force(), SEED), &SMALL).is_ok());
}

/// What the rules say of sound stations and charts.
const SOUNDNESS: [&str; 9] = [
    "wheat samples",
    "corn samples",
    "last day",
    "intercept bound",
    "set average bound",
    "last week",
    "pairs",
    "chart plot bound",
    "chart range bound",
];

/// The checks alone notice each number of these rules being one too high or too low, and every wrong number 0.
#[test]
fn damaged_soundness_is_caught() {
    let mut models = Vec::new();
    for name in SOUNDNESS {
        for by in [1, -1] {
            models.push((format!("{name} by {by}"), damaged::rules_of(name, by), None));
        }
    }
    let wrong = damaged::WRONG
        .into_iter()
        .filter(|wrong| wrong.is_of_soundness());
    models.extend(wrong.map(|wrong| (format!("{wrong:?}"), wrong.rules(), Some(wrong))));
    assert_eq!(models.len(), 2 * SOUNDNESS.len() + 15);
    let checked = |rules, wrong| {
        let mut trial = Trial::new(rules, SEED);
        trial.wrong = wrong;
        (0..100_000).try_for_each(|_| sound::single(&mut trial))
    };
    for (name, rules, wrong) in models {
        assert!(checked(rules, wrong).is_err(), "not noticed: {name}");
    }
    assert!(checked(Rules::in_force(), None).is_ok());
}

/// Every float there is, by the C interface. Takes minutes: `cargo test --release -- --ignored`.
#[test]
#[ignore = "takes minutes"]
fn all_floats() {
    let mut accepted = 0_u64;
    for bits in 0..=u32::MAX {
        let said = grain::ffi::grain_reading(f32::from_bits(bits));
        let (expected, hundredths) = match grain_model::reading(bits) {
            Ok(reading) => ([1, 0], reading as u32),
            Err(number) => ([0, number.into()], 0),
        };
        let answer = ([said.accepted, said.number], said.hundredths);
        assert_eq!(answer, (expected, hundredths), "{bits:08X}");
        accepted += u64::from(said.accepted);
    }
    say(&format!("all floats agree, {accepted} of them read"));
}
