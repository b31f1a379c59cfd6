//! Working days from a date on, and a ship lot stated from its sublots' records.
//!
//!     cargo run --example calendar_and_lot

use std::error::Error;

use grain::{
    Date, Hundredths, Refusal, Sublot, Tenths, date_from_day, day_from_date, results_due, ship_lot,
    weekday, working_day,
};

/// A day with its weekday and date.
fn named(day: u32) -> Result<String, Refusal> {
    Ok(format!("{}, {}", weekday(day)?, date_from_day(day)?))
}

fn calendar() -> Result<(), Box<dyn Error>> {
    let retrieved = day_from_date("2026-11-25".parse()?)?;
    let holiday = day_from_date("2026-11-26".parse()?)?;
    let holidays = [holiday.try_into()?];
    println!("retrieved on {}", named(retrieved)?);
    println!(
        "results due on {}",
        named(results_due(retrieved, &holidays)?)?
    );
    println!(
        "ten working days on it is {}",
        named(working_day(retrieved, 10, &holidays)?)?
    );

    let no_date: Date = "2026-02-29".parse()?;
    if let Err(refusal) = day_from_date(no_date) {
        println!("{no_date} {refusal}");
    }
    if let Err(error) = "29.11.2026".parse::<Date>() {
        println!("29.11.2026 is not read: {error}");
    }
    Ok(())
}

/// A record of a sublot's certificate: its figure and moisture basis in percent, its tonnes.
fn record(figure: &str, basis: &str, tonnes: i32) -> Result<Sublot, Box<dyn Error>> {
    let (Tenths(figure), Hundredths(basis)) = (figure.parse()?, basis.parse()?);
    Ok(Sublot {
        figure,
        basis,
        tonnes,
    })
}

fn lot() -> Result<(), Box<dyn Error>> {
    let mut records = vec![
        record("13.4", "12.00", 11_000)?,
        record("13.5", "12.00", 9_000)?,
    ];
    let lot = ship_lot(&records)?;
    println!(
        "ship lot of {} tonnes: {} to {} percent at moisture {}, mean {}",
        lot.tonnes,
        Tenths::try_from(lot.lowest)?,
        Tenths::try_from(lot.highest)?,
        Hundredths(lot.basis),
        Tenths::try_from(lot.mean)?
    );
    // A figure at another moisture can't be stated with them.
    records.push(record("15.4", "0", 5_000)?);
    if let Err(refusal) = ship_lot(&records) {
        println!("ship lot {refusal}");
    }
    Ok(())
}

fn main() -> Result<(), Box<dyn Error>> {
    calendar()?;
    lot()
}
