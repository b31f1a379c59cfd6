//! A wheat station's day: it is opened, reference sheets are entered, market grain is tested, and it is repaired.
//! Refused calls say why and what to do.
//!
//!     cargo run --example station_day

use std::error::Error;

use grain::{
    Asked, Basis, Certificate, Hundredths, LinePhase, Outcome, Refusal, Scan, Station, Tenths,
    day_from_date,
};

/// The line of wheat: protein.
const PROTEIN: usize = 0;

/// Not measured.
const NONE: i32 = -1;

fn hundredths(text: &str) -> Result<i32, Box<dyn Error>> {
    let Hundredths(number) = text.parse()?;
    Ok(number)
}

/// A sheet of six samples with one reference value, each measured twice with one result.
fn sheet(reference: &str, result: &str) -> Result<Vec<i32>, Box<dyn Error>> {
    let (reference, result) = (hundredths(reference)?, hundredths(result)?);
    Ok([reference, result, result, NONE, NONE, NONE].repeat(6))
}

fn say_sheet(answer: Result<Outcome, Refusal>, station: &Station) {
    match answer {
        Ok(outcome) => {
            let phase = match station.line(PROTEIN).map(|line| line.phase) {
                Some(LinePhase::Open) => "open",
                Some(LinePhase::Adjusted) => "adjusted",
                Some(LinePhase::Shut) => "shut",
                Some(LinePhase::New) | None => "new",
            };
            println!(
                "sheet: intercept changed by {}, the line is {phase}",
                Hundredths(outcome.change)
            );
        }
        Err(refusal) => println!("sheet {refusal}"),
    }
}

/// Tests a load of wheat whose protein is to be stated at its official moisture.
fn test(
    station: &mut Station,
    day: u32,
    protein: f32,
    moisture: &str,
) -> Result<(), Box<dyn Error>> {
    let basis = Basis::AsIs(hundredths(moisture)?);
    match station.market(
        day,
        PROTEIN as u64,
        Scan::Wheat(protein),
        Asked::LineFigure,
        basis,
    ) {
        Ok(certificate) => say_certificate(certificate)?,
        Err(refusal) => println!("market test {refusal}"),
    }
    Ok(())
}

fn say_certificate(certificate: Certificate) -> Result<(), Box<dyn Error>> {
    println!(
        "certificate: protein {} percent at moisture {}, intercept {}",
        Tenths::try_from(certificate.converted)?,
        Hundredths(certificate.basis),
        Hundredths(certificate.intercept)
    );
    Ok(())
}

fn main() -> Result<(), Box<dyn Error>> {
    let day = day_from_date("2026-11-27".parse()?)?;
    let mut station = Station::open(Station::WHEAT)?;
    test(&mut station, day, 13.54, "11.50")?;

    // 0.11 percent too high: the intercept is lowered, and the next sheet is the check.
    let high = sheet("13.00", "13.11")?;
    let answer = station.sheet(day, PROTEIN as u64, &high);
    say_sheet(answer, &station);
    test(&mut station, day, 13.54, "11.50")?;
    let answer = station.sheet(day, PROTEIN as u64, &high);
    say_sheet(answer, &station);
    test(&mut station, day, 13.54, "11.50")?;
    test(&mut station, day, 13.54, "61.00")?;

    // A sheet with a number missing.
    let answer = station.sheet(day, PROTEIN as u64, &high[1..]);
    say_sheet(answer, &station);

    station.repair(day)?;
    println!("repair");
    test(&mut station, day, 13.54, "11.50")?;

    // Stored overnight and taken up again.
    let stored = station.to_bytes();
    let restored = Station::from_bytes(&stored)?;
    println!(
        "{} bytes stored, sound: {}",
        stored.len(),
        restored.is_sound()
    );
    Ok(())
}
