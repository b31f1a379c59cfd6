//! Whether stations and charts are sound: the core's checks against the model's rules, on states that are sound, on
//! such states after a few changes, and on any numbers.

use grain::ffi;

use crate::damaged::Wrong;
use crate::encode::{self, ChartPlaces, StationPlaces};
use crate::lent::{Difference, Lent, same};
use crate::rng::Rng;
use crate::stations::{Trial, plain_answer};
use crate::unsound;

impl Trial {
    /// Whether a station is sound.
    pub fn station_check(&mut self, places: &StationPlaces) -> Result<bool, Difference> {
        let sound = self.seen(places).sound(&self.rules);
        let answer = if sound { Ok(()) } else { Err(0) };
        let what = || format!("check of station {places:?}");
        let mut state = Lent::of(&mut self.rng, places);
        // SAFETY: a station's places are lent.
        let core = unsafe { ffi::grain_station_check(state.pointer().cast()) };
        same(what, core, plain_answer(answer))?;
        state.untouched(what)?;
        let wrapper = grain::Station::from_places(*places);
        same(what, wrapper.is_sound(), sound)?;
        self.met.call("station check", answer.err());
        Ok(sound)
    }

    /// Whether a chart is sound.
    pub fn chart_check(&mut self, places: &ChartPlaces) -> Result<bool, Difference> {
        let chart = encode::chart(places);
        let sound = match self.wrong {
            Some(wrong) => chart.sound(&wrong.chart_rules(&self.rules, &chart)),
            None => chart.sound(&self.rules),
        };
        let answer = if sound { Ok(()) } else { Err(0) };
        let what = || format!("check of chart {places:?}");
        let mut state = Lent::of(&mut self.rng, places);
        // SAFETY: a chart's places are lent.
        let core = unsafe { ffi::grain_chart_check(state.pointer().cast()) };
        same(what, core, plain_answer(answer))?;
        state.untouched(what)?;
        let wrapper = grain::Chart::from_places(*places);
        same(what, wrapper.is_sound(), sound)?;
        self.met.call("chart check", answer.err());
        Ok(sound)
    }
}

impl Wrong {
    /// Whether the wrong model finds sound what isn't, or the other way round.
    pub fn is_of_soundness(self) -> bool {
        matches!(
            self,
            Wrong::KindsCompared
                | Wrong::KindsShared
                | Wrong::TwoBesideFour
                | Wrong::NonzeroNeeded
                | Wrong::ZeroAllowed
                | Wrong::HeldAnywhere(_)
                | Wrong::NonzeroAlone
                | Wrong::Unseen(..)
                | Wrong::HeldTimesCount
        )
    }
}

/// What was done to a sound state.
#[derive(Clone, Copy)]
enum Change {
    Nothing,
    OnePlace,
    SeveralPlaces,
    AnyNumbers,
}

fn a_change(rng: &mut Rng) -> Change {
    match rng.below(20) {
        0..4 => Change::Nothing,
        4..14 => Change::OnePlace,
        14..18 => Change::SeveralPlaces,
        _ => Change::AnyNumbers,
    }
}

/// Changes a place to a number beside some edge or beside its own, or in a bit.
fn change_place(rng: &mut Rng, places: &mut [i32]) {
    let place = rng.below(places.len());
    let number = &mut places[place];
    *number = match rng.below(4) {
        0 | 1 => rng.pick(&unsound::EDGES),
        2 => number.wrapping_add(rng.pick(&[-2, -1, 1, 2])),
        _ => *number ^ (1 << rng.below(32)),
    };
}

fn change(rng: &mut Rng, change: Change, places: &mut [i32]) {
    match change {
        Change::Nothing => {}
        Change::OnePlace => change_place(rng, places),
        Change::SeveralPlaces => {
            for _ in 0..rng.range(2, 6) {
                change_place(rng, places);
            }
        }
        Change::AnyNumbers => unsound::any_numbers(rng, places),
    }
}

/// Checks of a station and of a chart.
pub fn single(trial: &mut Trial) -> Result<(), Difference> {
    let rng = &mut trial.rng;
    let how = a_change(rng);
    let mut places = encode::station_places(&unsound::sound_station(rng));
    change(rng, how, &mut places);
    let sound = trial.station_check(&places)?;
    trial.met.branch(match (how, sound) {
        (Change::Nothing, true) => "check: a sound station",
        (Change::Nothing, false) => panic!("the generator's station isn't sound: {places:?}"),
        (Change::OnePlace, true) => "check: a station changed in one place, sound",
        (Change::OnePlace, false) => "check: a station changed in one place, unsound",
        (Change::SeveralPlaces, true) => "check: a station changed in several places, sound",
        (Change::SeveralPlaces, false) => "check: a station changed in several places, unsound",
        (Change::AnyNumbers, true) => "check: any numbers that are a sound station",
        (Change::AnyNumbers, false) => "check: any numbers that are no sound station",
    });
    single_chart(trial)
}

fn single_chart(trial: &mut Trial) -> Result<(), Difference> {
    let rng = &mut trial.rng;
    let how = a_change(rng);
    let mut places = encode::chart_places(&unsound::sound_chart(rng));
    change(rng, how, &mut places);
    let sound = trial.chart_check(&places)?;
    trial.met.branch(match (how, sound) {
        (Change::Nothing, true) => "check: a sound chart",
        (Change::Nothing, false) => panic!("the generator's chart isn't sound: {places:?}"),
        (Change::OnePlace, true) => "check: a chart changed in one place, sound",
        (Change::OnePlace, false) => "check: a chart changed in one place, unsound",
        (Change::SeveralPlaces, true) => "check: a chart changed in several places, sound",
        (Change::SeveralPlaces, false) => "check: a chart changed in several places, unsound",
        (Change::AnyNumbers, true) => "check: any numbers that are a sound chart",
        (Change::AnyNumbers, false) => "check: any numbers that are no sound chart",
    });
    Ok(())
}
