//! Station calls and readings: the core's C interface and the safe wrapper against the model.

use grain::ffi;
use grain_model as model;
use grain_model::{Book, Certificate, Judged, Rules};

use crate::damaged::Wrong;
use crate::encode::{self, StationPlaces};
use crate::history::{Event, History};
use crate::lent::{Difference, Lent, same};
use crate::met::Met;
use crate::rng::Rng;

/// What all comparisons share: the model's numbers and its calendar, what is wrong with the model, if
/// anything, the random generator, the counts, and whether sheets and lots are also given in another
/// order.
pub struct Trial {
    pub rules: Rules,
    pub calendar: model::Calendar,
    pub wrong: Option<Wrong>,
    pub rng: Rng,
    pub met: Met,
    pub orders: bool,
}

/// A station under comparison. One opened here is also kept as a book. What its lines went through is
/// there to count it.
#[derive(Clone)]
pub struct Subject {
    pub places: StationPlaces,
    pub book: Option<Book>,
    pub history: [History; 3],
}

impl Subject {
    /// A station that wasn't opened here.
    pub fn handed_in(places: StationPlaces) -> Subject {
        Subject {
            places,
            book: None,
            history: Default::default(),
        }
    }
}

/// The arguments of a market test, as the C interface takes them.
#[derive(Clone, Copy, Debug)]
pub struct Request {
    pub day: u32,
    pub line: u64,
    pub scan_kind: u32,
    pub floats: [u32; 3],
    pub asked: u32,
    pub basis_kind: u32,
    pub basis: i32,
}

impl Request {
    fn scan(&self) -> model::Scan {
        match self.scan_kind {
            0 => model::Scan::Wheat(self.floats[0]),
            1 => model::Scan::Corn(self.floats),
            3 => model::Scan::WheatGluten(self.floats[0], self.floats[1]),
            _ => model::Scan::Fault,
        }
    }

    fn asked(&self) -> model::Asked {
        match self.asked {
            0 => model::Asked::LineFigure,
            1 => model::Asked::Gluten(model::WheatClass::HardRedWinter),
            2 => model::Asked::Gluten(model::WheatClass::HardRedSpring),
            _ => model::Asked::Gluten(model::WheatClass::Other),
        }
    }

    fn basis(&self) -> model::Basis {
        match self.basis_kind {
            0 => model::Basis::Standard,
            1 => model::Basis::Dry,
            2 => model::Basis::Specified(self.basis),
            3 => model::Basis::AsIs(self.basis),
            _ => model::Basis::Unknown,
        }
    }

    fn wrapped_scan(&self) -> grain::Scan {
        let [protein, oil, starch] = self.floats.map(f32::from_bits);
        match self.scan_kind {
            0 => grain::Scan::Wheat(protein),
            1 => grain::Scan::Corn {
                protein,
                oil,
                starch,
            },
            3 => grain::Scan::WheatGluten {
                protein,
                gluten: oil,
            },
            code => grain::Scan::Fault(code as u8),
        }
    }

    fn wrapped_asked(&self) -> grain::Asked {
        match self.asked {
            0 => grain::Asked::LineFigure,
            1 => grain::Asked::Gluten(grain::WheatClass::HardRedWinter),
            2 => grain::Asked::Gluten(grain::WheatClass::HardRedSpring),
            _ => grain::Asked::Gluten(grain::WheatClass::Other),
        }
    }

    /// None: the wrapper has no such kind.
    fn wrapped_basis(&self) -> Option<grain::Basis> {
        match self.basis_kind {
            0 => Some(grain::Basis::Standard),
            1 => Some(grain::Basis::Dry),
            2 => Some(grain::Basis::Specified(self.basis)),
            3 => Some(grain::Basis::AsIs(self.basis)),
            _ => None,
        }
    }
}

/// A wrapper's refusal as its number.
pub fn number<T>(answer: Result<T, grain::Refusal>) -> Result<T, u8> {
    answer.map_err(grain::Refusal::number)
}

/// The C interface's answer that carries no values.
pub fn plain_answer(answer: Result<(), u8>) -> ffi::Answer {
    match answer {
        Ok(()) => ffi::Answer {
            accepted: 1,
            number: 0,
        },
        Err(number) => ffi::Answer {
            accepted: 0,
            number: number.into(),
        },
    }
}

fn value(answer: Result<i64, u8>) -> ffi::Value {
    let ffi::Answer { accepted, number } = plain_answer(answer.map(|_| ()));
    ffi::Value {
        accepted,
        number,
        hundredths: answer.unwrap_or(0) as u32,
    }
}

fn outcome(answer: Result<model::Outcome, u8>) -> ffi::Outcome {
    match answer {
        Ok(outcome) => ffi::Outcome {
            accepted: 1,
            number: 0,
            sum: outcome.s as i32,
            count: outcome.n as u32,
            phase: outcome.phase.code() as u32,
            change: outcome.change as i32,
        },
        Err(number) => ffi::Outcome {
            number: number.into(),
            ..ffi::Outcome::default()
        },
    }
}

fn certificate(answer: Result<Certificate, u8>) -> ffi::Certificate {
    match answer {
        Ok(certificate) => ffi::Certificate {
            accepted: 1,
            number: 0,
            day: certificate.set_day as u32,
            intercept: certificate.intercept as i32,
            basis: certificate.basis as i32,
            figure: certificate.corrected as u32,
            converted: certificate.at_basis as u32,
        },
        Err(number) => ffi::Certificate {
            number: number.into(),
            ..ffi::Certificate::default()
        },
    }
}

/// The wrapper's outcome in the model's terms.
fn told_outcome(outcome: grain::Outcome) -> model::Outcome {
    model::Outcome {
        s: outcome.sum.into(),
        n: outcome.count.into(),
        phase: match outcome.phase {
            grain::Phase::New => model::Phase::New,
            grain::Phase::Open => model::Phase::Open,
            grain::Phase::CheckDue => model::Phase::CheckDue,
        },
        change: outcome.change.into(),
    }
}

fn told_certificate(certificate: grain::Certificate) -> Certificate {
    Certificate {
        set_day: certificate.day.into(),
        intercept: certificate.intercept.into(),
        basis: certificate.basis.into(),
        corrected: certificate.figure.into(),
        at_basis: certificate.converted.into(),
    }
}

impl Trial {
    pub fn new(rules: Rules, seed: u64) -> Trial {
        Trial {
            calendar: model::Calendar::new(&rules),
            rules,
            wrong: None,
            rng: Rng::new(seed),
            met: Met::new(),
            orders: false,
        }
    }

    pub fn reading(&mut self, bits: u32) -> Result<(), Difference> {
        let answer = model::reading(bits);
        let what = || format!("reading of {bits:08X}");
        same(
            what,
            ffi::grain_reading(f32::from_bits(bits)),
            value(answer),
        )?;
        let wrapped = number(grain::reading(f32::from_bits(bits)));
        same(what, wrapped.map(i64::from), answer)?;
        self.met.call("reading", answer.err());
        Ok(())
    }

    /// A fresh station, or none if the row doesn't exist.
    pub fn open(&mut self, row: u64) -> Result<Option<Subject>, Difference> {
        let (station, answer) = model::Station::open(&self.rules, row);
        let fresh = encode::station_places(&station);
        let mut lent: Lent<i32> = Lent::exactly(&mut self.rng, encode::STATION);
        // SAFETY: a station's places are lent.
        let core = unsafe { ffi::grain_open(lent.pointer().cast(), row) };
        let what = || format!("opening row {row}");
        same(what, core, plain_answer(answer))?;
        lent.holds(what, &fresh)?;
        let wrapped = number(grain::Station::open(row));
        same(
            what,
            wrapped.map(|station| station.places()),
            answer.map(|()| fresh),
        )?;
        self.met.call("open", answer.err());
        Ok(answer.is_ok().then_some(Subject {
            book: Some(Book::new(station.row)),
            ..Subject::handed_in(fresh)
        }))
    }

    /// The places after a call: the model's where it was accepted, else those handed in.
    fn after<T>(
        before: &StationPlaces,
        station: &model::Station,
        answer: &Result<T, u8>,
    ) -> StationPlaces {
        match answer {
            Ok(_) => encode::station_places(station),
            Err(_) => *before,
        }
    }

    /// The station that the model judges a call by.
    pub fn seen(&self, before: &StationPlaces) -> model::Station {
        let station = encode::station(before);
        match self.wrong {
            Some(wrong) => wrong.seen(&self.rules, station),
            None => station,
        }
    }

    /// The model's answer to a sheet, and the places after it; so of the calls below.
    fn sheet_by_model(
        &self,
        subject: &Subject,
        day: u32,
        line: u64,
        numbers: &[i32],
    ) -> (Result<Judged, u8>, StationPlaces) {
        let mut station = self.seen(&subject.places);
        let before = station;
        let mut answer = station.sheet(&self.rules, day, line, numbers);
        if let (Some(wrong), Ok(judged)) = (self.wrong, &mut answer) {
            let line = line as usize;
            let past = subject.book.as_ref().map(|book| book.past(line));
            wrong.sheet(
                &self.rules,
                &before,
                past.as_deref(),
                &mut station,
                line,
                judged,
            );
        }
        let after = Trial::after(&subject.places, &station, &answer);
        (answer, after)
    }

    fn repair_by_model(&self, before: &StationPlaces, day: u32) -> (Result<(), u8>, StationPlaces) {
        let mut station = self.seen(before);
        let answer = station.repair(&self.rules, day);
        if let (Some(wrong), Ok(())) = (self.wrong, answer) {
            wrong.repair(before, &mut station);
        }
        (answer, Trial::after(before, &station, &answer))
    }

    fn market_by_model(
        &self,
        before: &StationPlaces,
        request: Request,
    ) -> (Result<Certificate, u8>, StationPlaces) {
        let mut station = self.seen(before);
        let (scan, asked, basis) = (request.scan(), request.asked(), request.basis());
        let answer = station.market(&self.rules, request.day, request.line, scan, asked, basis);
        let answer = match self.wrong {
            Some(wrong) => wrong.market(before, request, answer),
            None => answer,
        };
        (answer, Trial::after(before, &station, &answer))
    }

    pub fn sheet(
        &mut self,
        subject: &mut Subject,
        day: u32,
        line: u64,
        numbers: &[i32],
    ) -> Result<Result<Judged, u8>, Difference> {
        let before = subject.places;
        let (answer, after) = self.sheet_by_model(subject, day, line, numbers);
        let told = answer.map(|judged| judged.outcome);
        let what = || format!("sheet on day {day}, line {line}, {numbers:?} of {before:?}");

        let mut state = Lent::of(&mut self.rng, &before);
        let mut sheet = Lent::of(&mut self.rng, numbers);
        // SAFETY: a station's places and the numbers with their length are lent.
        let core = unsafe {
            ffi::grain_sheet(
                state.pointer().cast(),
                day,
                line,
                sheet.pointer(),
                sheet.len(),
            )
        };
        same(what, core, outcome(told))?;
        state.holds(what, &after)?;
        sheet.untouched(what)?;
        let null = sheet.is_null() && told == Err(4);
        self.met
            .branch_if(null, "sheet: numbers null, refused by 4");

        let mut wrapper = grain::Station::from_places(before);
        let wrapped = number(wrapper.sheet(day, line, numbers));
        same(what, wrapped.map(told_outcome), told)?;
        same(what, wrapper.places(), after)?;
        if let Some(book) = &mut subject.book {
            same(
                || "the book on this sheet".to_string(),
                book.sheet(&self.rules, day, line, numbers),
                told,
            )?;
        }
        self.met.call("sheet", answer.err());
        if let Ok(judged) = answer {
            let before = encode::station(&before).lines[line as usize].phase();
            subject.history[line as usize].push(Event::Sheet {
                day: day.into(),
                before,
                verdict: judged.verdict,
            });
        }
        subject.places = after;
        Ok(answer)
    }

    pub fn repair(
        &mut self,
        subject: &mut Subject,
        day: u32,
    ) -> Result<Result<(), u8>, Difference> {
        let before = subject.places;
        let (answer, after) = self.repair_by_model(&before, day);
        let what = || format!("repair on day {day} of {before:?}");

        let mut state = Lent::of(&mut self.rng, &before);
        // SAFETY: a station's places are lent.
        let core = unsafe { ffi::grain_repair(state.pointer().cast(), day) };
        same(what, core, plain_answer(answer))?;
        state.holds(what, &after)?;

        let mut wrapper = grain::Station::from_places(before);
        same(what, number(wrapper.repair(day)), answer)?;
        same(what, wrapper.places(), after)?;
        if let Some(book) = &mut subject.book {
            same(
                || "the book on this repair".to_string(),
                book.repair(&self.rules, day),
                answer,
            )?;
        }
        self.met.call("repair", answer.err());
        if answer.is_ok() {
            for history in &mut subject.history {
                history.push(Event::Repair);
            }
        }
        subject.places = after;
        Ok(answer)
    }

    pub fn market(
        &mut self,
        subject: &mut Subject,
        request: Request,
    ) -> Result<Result<Certificate, u8>, Difference> {
        let before = subject.places;
        let (day, line) = (request.day, request.line);
        let (scan, asked, basis) = (request.scan(), request.asked(), request.basis());
        let (answer, after) = self.market_by_model(&before, request);
        let what = || format!("market test {request:?} of {before:?}");

        let mut state = Lent::of(&mut self.rng, &before);
        let [first, second, third] = request.floats.map(f32::from_bits);
        // SAFETY: a station's places are lent.
        let core = unsafe {
            ffi::grain_market(
                state.pointer().cast(),
                day,
                line,
                request.scan_kind,
                first,
                second,
                third,
                request.asked,
                request.basis_kind,
                request.basis,
            )
        };
        same(what, core, certificate(answer))?;
        state.holds(what, &after)?;

        if let Some(basis) = request.wrapped_basis() {
            let mut wrapper = grain::Station::from_places(before);
            let (scan, asked) = (request.wrapped_scan(), request.wrapped_asked());
            let wrapped = wrapper.market(day, line, scan, asked, basis);
            same(what, number(wrapped).map(told_certificate), answer)?;
            same(what, wrapper.places(), after)?;
        }
        if let Some(book) = &mut subject.book {
            let told = book.market(&self.rules, day, line, scan, asked, basis);
            same(|| "the book on this market test".to_string(), told, answer)?;
        }
        self.met.call("market", answer.err());
        subject.places = after;
        Ok(answer)
    }
}
