//! The wrapper's own parts: messages, stored states, conveniences; and that the linked library and the header say
//! the same.

use std::collections::BTreeSet;
use std::ffi::{CStr, c_char};
use std::path::Path;
use std::process::Command;

use grain::ffi::{self, INTERFACE};
use grain::{
    Asked, Basis, Chart, Date, LAST_DAY, LAYOUT, LOT_RECORDS, LinePhase, LotStatement, Outcome,
    PastSet, Phase, Refusal, RestoreError, Scan, Station, Sublot, Weekday, WheatClass, chart_text,
    chart_text_into, date_from_day, day_from_date, results_due, ship_lot, weekday, working_day,
};

#[test]
fn every_refusal_has_its_number_and_message() {
    let all: Vec<Refusal> = Refusal::all().collect();
    assert_eq!(all.len(), 32);
    for (number, refusal) in (0..).zip(&all) {
        assert_eq!(refusal.number(), number);
        assert_eq!(Refusal::of(number.into()), Some(*refusal));
        assert!(
            refusal
                .to_string()
                .starts_with(&format!("refused ({number}): "))
        );
    }
    let messages: BTreeSet<&str> = all.iter().map(|refusal| refusal.message()).collect();
    assert_eq!(messages.len(), 32);
    assert!(messages.iter().all(|message| message.len() > 20));
    for none in [32, 100, 256, u32::MAX] {
        assert_eq!(Refusal::of(none), None);
    }
}

/// A text of the library.
fn text(pointer: *const c_char) -> &'static str {
    // SAFETY: the library's texts end in a NUL and stand as long as the program runs.
    let text = unsafe { CStr::from_ptr(pointer) };
    text.to_str().unwrap()
}

#[test]
fn the_linked_library_says_the_same() {
    assert_eq!(ffi::grain_interface(), INTERFACE);
    assert_eq!(ffi::grain_layout(), LAYOUT);
    assert_eq!(text(ffi::grain_version()), env!("CARGO_PKG_VERSION"));
    for refusal in Refusal::all() {
        let message = text(ffi::grain_message(refusal.number().into()));
        assert_eq!(message, refusal.message(), "{refusal:?}");
    }
    for none in [32, 33, 40, 256, u32::MAX] {
        let message = text(ffi::grain_message(none));
        assert_eq!(message, "there is no refusal with this number", "{none}");
    }
}

/// A C program that prints the header's version, interface, layout, last day, records of a lot, weekdays and
/// messages.
const SAYS: &str = r#"
#include "grain.h"
#include <stdio.h>
int main(void)
{
    printf("%s\n%d\n%d\n", GRAIN_VERSION, GRAIN_INTERFACE, GRAIN_LAYOUT);
    printf("%d\n%d\n", GRAIN_LAST_DAY, GRAIN_LOT_RECORDS);
    printf("%d %d %d ", GRAIN_MONDAY, GRAIN_TUESDAY, GRAIN_WEDNESDAY);
    printf("%d %d %d %d\n", GRAIN_THURSDAY, GRAIN_FRIDAY, GRAIN_SATURDAY, GRAIN_SUNDAY);
    for (uint32_t number = 0; number < 33; number++)
        printf("%s\n", grain_message(number));
    return 0;
}
"#;

#[test]
fn the_header_says_the_same() {
    let folder = Path::new(env!("CARGO_TARGET_TMPDIR"));
    let (source, program) = (folder.join("says.c"), folder.join("says"));
    std::fs::write(&source, SAYS).unwrap();
    let include = Path::new(env!("CARGO_MANIFEST_DIR")).join("../include");
    let compiled = Command::new("cc")
        .args(["-std=c11", "-I"])
        .args([&include, &source])
        .arg("-o")
        .arg(&program)
        .status()
        .expect("the test needs a C compiler, cc");
    assert!(compiled.success());
    let said = Command::new(&program).output().unwrap();
    let said = String::from_utf8(said.stdout).unwrap();
    let mut lines = said.lines();
    assert_eq!(lines.next(), Some(env!("CARGO_PKG_VERSION")));
    assert_eq!(lines.next(), Some(INTERFACE.to_string().as_str()));
    assert_eq!(lines.next(), Some(LAYOUT.to_string().as_str()));
    assert_eq!(lines.next(), Some(LAST_DAY.to_string().as_str()));
    assert_eq!(lines.next(), Some(LOT_RECORDS.to_string().as_str()));
    let weekdays = WEEK.map(|weekday| weekday.number().to_string());
    assert_eq!(lines.next(), Some(weekdays.join(" ").as_str()));
    for refusal in Refusal::all() {
        assert_eq!(lines.next(), Some(refusal.message()), "{refusal:?}");
    }
    assert_eq!(lines.next(), Some("there is no refusal with this number"));
    assert_eq!(lines.next(), None);
}

/// The weekdays in their order.
const WEEK: [Weekday; 7] = [
    Weekday::Monday,
    Weekday::Tuesday,
    Weekday::Wednesday,
    Weekday::Thursday,
    Weekday::Friday,
    Weekday::Saturday,
    Weekday::Sunday,
];

/// The limits in the header's text are those of the rules.
#[test]
fn the_header_has_the_limits() {
    let header = Path::new(env!("CARGO_MANIFEST_DIR")).join("../include/grain.h");
    let header = std::fs::read_to_string(header).unwrap();
    let rows: Vec<String> = header
        .lines()
        .map(|line| line.split_whitespace().collect::<Vec<_>>().join(" "))
        .collect();
    let rules = grain_model::Rules::in_force();
    let factor = format!(
        "times {}.{:03}",
        rules.gluten_factor / 1000,
        rules.gluten_factor % 1000
    );
    let basis = format!("for wet gluten {}", rules.gluten_basis);
    let lots = rules.lots;
    let figure = format!("tenths: {} to {}", lots.figure.least, lots.figure.most);
    let lot_basis = format!("hundredths: {} to {}", lots.basis.least, lots.basis.most);
    let tonnes = format!("/* {} to {} */", lots.tonnes.least, lots.tonnes.most);
    let most_tonnes = lots.records.most * lots.tonnes.most;
    let all_tonnes = format!("at most {most_tonnes} */");
    let sum = format!("at most {} */", most_tonnes * lots.figure.most);
    for said in [factor, basis, figure, lot_basis, tonnes, all_tonnes, sum] {
        assert!(rows.iter().any(|row| row.contains(&said)), "{said}");
    }
    let names = [
        vec!["wheat protein"],
        vec!["corn protein", "corn oil", "corn starch"],
    ];
    for (product, names) in rules.products.iter().zip(names) {
        assert_eq!(product.lines.len(), names.len());
        for (limits, name) in product.lines.iter().zip(names) {
            let (pair, sample, range) = (limits.pair, limits.sample, limits.range);
            let row = format!("* {name} {pair} {sample} {range}");
            assert!(rows.contains(&row), "{row}");
        }
    }
}

#[test]
fn a_stored_station_goes_on() {
    let mut station = Station::open(Station::WHEAT).unwrap();
    let sheet = [1300, 1303, 1303, -1, -1, -1].repeat(6);
    let zeros = [1300, 1300, 1300, -1, -1, -1].repeat(6);
    station.sheet(4, 0, &sheet).unwrap();
    station.sheet(5, 0, &zeros).unwrap();
    let mut again = Station::from_bytes(&station.to_bytes()).unwrap();
    assert_eq!(again, station);
    assert_eq!(Station::from_places(station.places()), station);
    assert_eq!(again.sheet(6, 0, &sheet), station.sheet(6, 0, &sheet));
    assert_eq!(again, station);
    let line = station.line(0).unwrap();
    let set = |day, sum| PastSet {
        day,
        sum,
        count: 12,
    };
    assert_eq!((line.intercept, line.phase), (0, LinePhase::Open));
    assert_eq!(line.newest, [set(6, 36), set(5, 0)]);
    assert_eq!(line.nonzero, [set(6, 36), set(4, 36)]);
    assert_eq!(station.line(3), None);
}

/// The numbers from 1 on, so that every place has another.
fn counted<const LEN: usize>() -> [i32; LEN] {
    std::array::from_fn(|place| place as i32 + 1)
}

/// The bytes are the places as they lie in memory, the layout's number in front: a C program that
/// stores GRAIN_LAYOUT and the struct writes the same on a little-endian machine.
#[test]
fn stored_bytes_are_the_places() {
    let mut expected = LAYOUT.to_le_bytes().to_vec();
    expected.extend(counted::<68>().iter().flat_map(|place| place.to_le_bytes()));
    let station = Station::from_places(counted());
    assert_eq!(station.places(), counted());
    assert_eq!(station.to_bytes().as_slice(), expected);
    assert_eq!(Station::from_bytes(&expected), Ok(station));

    let mut expected = LAYOUT.to_le_bytes().to_vec();
    expected.extend(counted::<15>().iter().flat_map(|place| place.to_le_bytes()));
    let chart = Chart::from_places(counted());
    assert_eq!(chart.places(), counted());
    assert_eq!(chart.to_bytes().as_slice(), expected);
    assert_eq!(Chart::from_bytes(&expected), Ok(chart));
}

#[test]
fn other_bytes_are_not_restored() {
    let station = Station::open(Station::CORN).unwrap().to_bytes();
    let length = |found, needed| RestoreError::Length { found, needed };
    for few in [0, 3, 4, 192, 275] {
        let error = Station::from_bytes(&station[..few]);
        assert_eq!(error, Err(length(few, 276)));
    }
    let more = [&station[..], &[0]].concat();
    assert_eq!(Station::from_bytes(&more), Err(length(277, 276)));
    let chart = Chart::open(Chart::SOYBEAN_OIL).unwrap().to_bytes();
    assert_eq!(Station::from_bytes(&chart), Err(length(64, 276)));
    assert_eq!(Chart::from_bytes(&station), Err(length(276, 64)));
    for found in [0, 1, LAYOUT + 1, LAYOUT << 8, u32::MAX] {
        let mut other = station;
        other[..4].copy_from_slice(&found.to_le_bytes());
        let error = Err(RestoreError::Layout { found });
        assert_eq!(Station::from_bytes(&other), error);
        // Another layout may have another length.
        assert_eq!(Station::from_bytes(&other[..100]), error);
    }
    let text = RestoreError::Layout { found: 9 }.to_string();
    assert!(
        text.contains("layout 9") && text.contains("layout 4"),
        "{text}"
    );
    let text = length(64, 276).to_string();
    assert!(text.contains("64") && text.contains("276"), "{text}");
}

/// Stored places as a layout before this one has them.
fn in_layout(layout: i32, places: &[i32]) -> Vec<u8> {
    let numbers = [&[layout], places].concat();
    numbers
        .iter()
        .flat_map(|number| number.to_le_bytes())
        .collect()
}

/// Charts are alike in layouts 3 and 4.
#[test]
fn a_chart_of_layout_3_is_read() {
    let bytes = in_layout(3, &counted::<15>());
    let chart = Chart::from_bytes(&bytes).unwrap();
    assert_eq!(chart.places(), counted());
    // Stored now it is of this layout.
    let stored = chart.to_bytes();
    assert_eq!(
        (&stored[..4], &stored[4..]),
        (&[4, 0, 0, 0][..], &bytes[4..])
    );
    let length = RestoreError::Length {
        found: 60,
        needed: 64,
    };
    assert_eq!(Chart::from_bytes(&bytes[..60]), Err(length));
}

/// Charts of layouts 1 and 2 hold sums: they are not read unless they hold no set, and the error says
/// what to do.
#[test]
fn a_chart_of_sums_is_not_read() {
    let fresh = Chart::open(Chart::BARLEY_PROTEIN).unwrap();
    for found in [1, 2] {
        let bytes = in_layout(found as i32, &fresh.places());
        assert_eq!(Chart::from_bytes(&bytes).as_ref(), Ok(&fresh));
        let row = counted::<15>()[0];
        let error = RestoreError::ChartOfSums { found, row };
        for held in [1, 4, 5, -1, i32::MIN] {
            let mut places = counted::<15>();
            places[2] = held;
            let bytes = in_layout(found as i32, &places);
            assert_eq!(Chart::from_bytes(&bytes), Err(error));
        }
        let text = error.to_string();
        let layout = format!("layout {found}");
        for said in [
            &layout,
            "a chart",
            "sums",
            &format!("open its row {row} anew"),
            "newest four weeks",
        ] {
            assert!(text.contains(said), "{text}");
        }
        // Charts had this length then, too: a station is none.
        let station = in_layout(found as i32, &counted::<47>());
        for (bytes, found) in [(&station[..], 192), (&station[..60], 60)] {
            let length = RestoreError::Length { found, needed: 64 };
            assert_eq!(Chart::from_bytes(bytes), Err(length));
        }
    }
    for found in [0, LAYOUT + 1, u32::MAX] {
        let mut other = fresh.to_bytes();
        other[..4].copy_from_slice(&found.to_le_bytes());
        let error = Err(RestoreError::Layout { found });
        assert_eq!(Chart::from_bytes(&other), error);
        assert_eq!(Chart::from_bytes(&other[..50]), error);
    }
}

/// Sets of seven weeks, with one to five pairs.
const WEEKS: [&[i32]; 7] = [
    &[1315, 1307, 1018, 1054, 1447, 1479, 1256, 1223, 1857, 1877],
    &[1039, 1000, 1000, 1000],
    &[961, 1000, 1000, 1000],
    &[1212, 1200],
    &[1003, 1000, 1000, 1001, 1000, 1001, 1001, 1000],
    &[1500, 1488, 1500, 1489, 1500, 1490],
    &[1300, 1289],
];

/// A chart with these weeks' sets on it.
fn with_weeks(sets: &[(u32, &[i32])]) -> Chart {
    let mut chart = Chart::open(Chart::WHEAT_PROTEIN).unwrap();
    for (week, numbers) in sets {
        chart.set(*week, numbers, &mut [0; Chart::LINE]).unwrap();
    }
    chart
}

/// The line that the header's text shows is that of week 26.
#[test]
fn the_header_shows_a_line() {
    let header = Path::new(env!("CARGO_MANIFEST_DIR")).join("../include/grain.h");
    let header = std::fs::read_to_string(header).unwrap();
    let mut chart = Chart::open(Chart::WHEAT_PROTEIN).unwrap();
    let mut line = [0; Chart::LINE];
    let values = chart.set(26, WEEKS[0], &mut line).unwrap();
    let line = std::str::from_utf8(&line[..values.length]).unwrap();
    assert_eq!(line, "26 5 -9 69 0 0 0 1 0\n");
    assert!(header.contains(&format!("`{}`", line.trim_end())));
}

/// A held set has count, plot and range.
#[test]
fn a_stored_chart_goes_on() {
    let weeks: Vec<_> = (26..).zip(WEEKS).collect();
    let mut chart = with_weeks(&weeks[..3]);
    let places = [0, 28, 3, 2, -19, 39, 2, 20, 39, 5, -9, 69, 0, 0, 0];
    assert_eq!(chart.places(), places);
    let mut again = Chart::from_bytes(&chart.to_bytes()).unwrap();
    assert_eq!(again, chart);
    let set = |chart: &mut Chart| chart.set(29, WEEKS[3], &mut [0; Chart::LINE]);
    assert_eq!(set(&mut again), set(&mut chart));
    assert_eq!(again, chart);
}

/// On the row opened anew the sets of the newest four weeks make the same chart, so that one of sums can
/// be charted again.
#[test]
fn the_newest_four_weeks_make_the_chart() {
    let weeks: Vec<_> = (26..).zip(WEEKS).collect();
    for count in 5..=weeks.len() {
        let charted = &weeks[..count];
        assert_eq!(
            with_weeks(&charted[count - 4..]),
            with_weeks(charted),
            "{count}"
        );
        assert_ne!(
            with_weeks(&charted[count - 3..]),
            with_weeks(charted),
            "{count}"
        );
    }
}

/// Damaged numbers are restored as they are. The check tells it, and every call refuses them.
#[test]
fn a_damaged_station_is_refused() {
    let mut bytes = Station::open(Station::WHEAT).unwrap().to_bytes();
    assert!(Station::from_bytes(&bytes).unwrap().is_sound());
    bytes[4 + 4 * 3] = 4; // line 0's phase
    let mut station = Station::from_bytes(&bytes).unwrap();
    assert!(!station.is_sound());
    assert_eq!(station.repair(1), Err(Refusal::Unsound));
    assert_eq!(station.to_bytes(), bytes);
}

#[test]
fn a_damaged_chart_is_refused() {
    let mut chart = with_weeks(&[(26, WEEKS[0])]);
    assert!(chart.is_sound());
    let mut bytes = chart.to_bytes();
    bytes[4 + 4 * 3] = 6; // the set's pairs
    chart = Chart::from_bytes(&bytes).unwrap();
    assert!(!chart.is_sound());
    let refused = chart.set(27, WEEKS[1], &mut [0; Chart::LINE]);
    assert_eq!(refused, Err(Refusal::Unsound));
    assert_eq!(chart.to_bytes(), bytes);
}

#[test]
fn numbers_of_no_line_are_none() {
    // Of line 1: its phase, how many newest sets it holds, how many that aren't zero.
    for (place, most) in [(25, 3), (26, 2), (33, 4)] {
        for (number, is_line) in [(0, true), (most, true), (most + 1, false), (-1, false)] {
            let mut places = [0; 68];
            places[place] = number;
            let station = Station::from_places(places);
            assert_eq!(station.line(1).is_some(), is_line, "{place} {number}");
            assert!(station.line(0).is_some() && station.line(2).is_some());
        }
    }
}

#[test]
fn a_refused_call_changes_nothing() {
    let mut station = Station::open(Station::CORN).unwrap();
    station.repair(9).unwrap();
    let before = station.clone();
    assert_eq!(station.repair(8), Err(Refusal::Day));
    assert_eq!(station.sheet(9, 3, &[]), Err(Refusal::NoSuchLine));
    assert_eq!(station, before);
    let mut chart = Chart::open(Chart::BARLEY_PROTEIN).unwrap();
    chart.set(7, &[1200, 1190], &mut [0; Chart::LINE]).unwrap();
    let before = chart.clone();
    let mut short = [b'#'; 39];
    let refused = chart.set(8, &[1200, 1190], &mut short);
    assert_eq!(refused, Err(Refusal::BufferTooShort));
    assert_eq!((chart.last_week(), &chart), (7, &before));
    assert_eq!(short, [b'#'; 39]);
}

/// All orders of three.
const ORDERS: [[usize; 3]; 6] = [
    [0, 1, 2],
    [0, 2, 1],
    [1, 0, 2],
    [1, 2, 0],
    [2, 0, 1],
    [2, 1, 0],
];

/// A wheat station that is open with a set of day 1.
fn open_wheat() -> Station {
    let mut station = Station::open(Station::WHEAT).unwrap();
    let sheet = [1300, 1300, 1300, -1, -1, -1].repeat(6);
    station.sheet(1, 0, &sheet).unwrap();
    station
}

/// The answer and the station after a sheet of these samples and three more, which are the same in each
/// order of the three.
fn in_every_order(samples: [[i32; 6]; 3]) -> (Result<Outcome, Refusal>, Station) {
    let usual = [1300, 1300, 1300, -1, -1, -1];
    let entered = |order: [usize; 3]| {
        let [one, two, three] = order.map(|place| samples[place]);
        let numbers = [one, usual, two, usual, three, usual].concat();
        let mut station = open_wheat();
        (station.sheet(2, 0, &numbers), station)
    };
    for order in ORDERS {
        assert_eq!(entered(order), entered(ORDERS[0]), "{order:?}");
    }
    entered(ORDERS[0])
}

/// The same samples in another order: the same outcome and station, or the same refusal.
#[test]
fn samples_in_any_order() {
    let third = [1250, 1240, 1275, 1245, -1, -1];
    let kept = [1400, 1451, 1451, -1, 1410, 1412];
    let dropped = [1200, 1140, 1145, -1, 1150, 1155];
    let (answer, station) = in_every_order([third, kept, dropped]);
    let outcome = answer.unwrap();
    assert_eq!((outcome.sum, outcome.count), (7, 10));
    let newest = station.line(0).unwrap().newest[0];
    assert_eq!((newest.day, newest.sum, newest.count), (2, 7, 10));
    // A third missing, a number out of range, an again pair that isn't due: the lowest number.
    let no_third = [1250, 1240, 1275, -1, -1, -1];
    let needless = [1300, 1300, 1300, -1, 1300, 1300];
    for number in [10_001, i32::MIN, i32::MAX] {
        let wrong = [1300, number, 1300, -1, -1, -1];
        let refused = in_every_order([no_third, wrong, needless]);
        assert_eq!(refused, (Err(Refusal::SheetNumber), open_wheat()));
    }
}

/// A line that isn't open tells why; a sheet's outcome says check due of adjusted and shut lines.
#[test]
fn lines_that_are_not_open() {
    let mut station = Station::open(Station::WHEAT).unwrap();
    let line = |station: &Station| station.line(0).unwrap().phase;
    let refused = |station: &Station| {
        let scan = Scan::Wheat(13.0);
        let answer = station
            .clone()
            .market(1, 0, scan, Asked::LineFigure, Basis::Dry);
        answer.err()
    };
    let sheet = |result| [1300, result, result, -1, -1, -1].repeat(6);
    assert_eq!(refused(&station), Some(Refusal::NewLine));
    // Open; adjusted to -11; beyond the bound; adjusted by the check of a shut line to -17; opened.
    let sheets = [
        (1310, LinePhase::Open, None),
        (1311, LinePhase::Adjusted, Some(Refusal::AdjustedLine)),
        (2400, LinePhase::Shut, Some(Refusal::ShutLine)),
        (1317, LinePhase::Adjusted, Some(Refusal::AdjustedLine)),
        (1317, LinePhase::Open, None),
    ];
    for (result, phase, refusal) in sheets {
        let outcome = station.sheet(1, 0, &sheet(result)).unwrap();
        assert_eq!((outcome.phase, line(&station)), (phase.phase(), phase));
        assert_eq!(
            outcome.phase == Phase::CheckDue && outcome.change == 0,
            phase == LinePhase::Shut
        );
        assert_eq!(refused(&station), refusal, "{result}");
        let mut repaired = station.clone();
        repaired.repair(1).unwrap();
        let then = match phase {
            LinePhase::Open => LinePhase::New,
            other => other,
        };
        assert_eq!(line(&repaired), then);
    }
}

/// A fault is refused by 8 whatever its code and whatever is asked for.
#[test]
fn every_fault_is_refused() {
    let mut station = Station::open(Station::WHEAT).unwrap();
    let sheet = [1300, 1300, 1300, -1, -1, -1].repeat(6);
    station.sheet(1, 0, &sheet).unwrap();
    let gluten = Asked::Gluten(WheatClass::HardRedSpring);
    for asked in [Asked::LineFigure, gluten] {
        for code in 0..=255 {
            let answer = station.market(2, 0, Scan::Fault(code), asked, Basis::Standard);
            assert_eq!(answer, Err(Refusal::Scan), "{code}");
        }
    }
    let scan = Scan::WheatGluten {
        protein: 13.0,
        gluten: 34.0,
    };
    let figure = |asked| station.clone().market(2, 0, scan, asked, Basis::Standard);
    assert_eq!(figure(Asked::LineFigure).unwrap().figure, 130);
    assert_eq!(figure(gluten).unwrap().figure, 340);
}

#[test]
fn texts_need_no_buffer() {
    let text = b"week sample original monitor\n1 1 1315 1307\n2 1 1018 1054\n";
    let mut out = [0; 120];
    let length = chart_text_into(text, &mut out).unwrap();
    assert_eq!(chart_text(text).unwrap(), out[..length]);
    let refused = chart_text_into(text, &mut out[..119]).unwrap_err();
    assert_eq!(
        (refused.refusal, refused.line),
        (Refusal::BufferTooShort, 0)
    );
    let refused = chart_text(&text[1..]).unwrap_err();
    assert_eq!((refused.refusal, refused.line), (Refusal::NamesLine, 1));
    assert!(
        refused
            .to_string()
            .starts_with("text line 1: refused (16): ")
    );
    let refused = chart_text(&[b'\n'; 65_537]).unwrap_err();
    assert_eq!((refused.refusal, refused.line), (Refusal::TextTooLong, 0));
}

/// Day 2 is a Monday. Dates are ordered as their days are.
#[test]
fn days_have_weekdays_and_dates() {
    for (day, expected) in (2..).zip(WEEK) {
        assert_eq!(weekday(day), Ok(expected));
    }
    let mut before = date_from_day(0).unwrap();
    for day in (1..=LAST_DAY).step_by(13) {
        let date = date_from_day(day).unwrap();
        assert!(before < date, "{day}");
        assert_eq!(day_from_date(date), Ok(day));
        before = date;
    }
}

/// What is printed of a date is read again, for every day.
#[test]
fn dates_are_printed_and_read() {
    for day in 0..=LAST_DAY {
        let date = date_from_day(day).unwrap();
        let printed = date.to_string();
        assert_eq!(printed.len(), 10);
        assert_eq!(printed.parse(), Ok(date));
    }
    assert_eq!(date_from_day(0).unwrap().to_string(), "2000-01-01");
    assert_eq!(date_from_day(LAST_DAY).unwrap().to_string(), "2273-10-15");
    // The form alone is looked at.
    let (year, month, day) = (0, 99, 0);
    assert_eq!("0000-99-00".parse(), Ok(Date { year, month, day }));
    let columns = format!("{:>12}|{:<12}|", date_from_day(0).unwrap(), Weekday::Friday);
    assert_eq!(columns, "  2000-01-01|Friday      |");
}

#[test]
fn what_is_no_date() {
    for text in [
        "",
        "2026-11-7",
        "2026-1-27",
        "226-11-27",
        "02026-11-27",
        "2026-11-027",
        "2026-11-27 ",
        " 2026-11-27",
        "2026-11-27T00:00",
        "2026/11/27",
        "2026-11_27",
        "20261127",
        "27.11.2026",
        "-026-11-27",
        "+026-11-27",
        "2026-+1-27",
        "2026-11- 7",
        "2026-1a-27",
        "202x-11-27",
        "２026-11-7",
        "2026-11-2٧",
        "2026\u{2010}11-7",
    ] {
        assert!(text.parse::<Date>().is_err(), "{text:?}");
    }
}

#[test]
fn weekdays_have_names() {
    let names = WEEK.map(|weekday| weekday.to_string()).join(" ");
    assert_eq!(
        names,
        "Monday Tuesday Wednesday Thursday Friday Saturday Sunday"
    );
}

#[test]
fn what_the_calendar_refuses() {
    let none = Date {
        year: u32::MAX,
        month: 1,
        day: 1,
    };
    assert_eq!(day_from_date(none), Err(Refusal::NoSuchDay));
    for day in [LAST_DAY + 1, u32::MAX] {
        assert_eq!(date_from_day(day), Err(Refusal::NoSuchDay));
        assert_eq!(weekday(day), Err(Refusal::NoSuchDay));
        assert_eq!(results_due(day, &[1, 1]), Err(Refusal::NoSuchDay));
    }
    for holidays in [[1, 1], [2, 1], [-1, 1], [1, 100_000]] {
        assert_eq!(working_day(1, 0, &holidays), Err(Refusal::Holidays));
        assert_eq!(results_due(LAST_DAY, &holidays), Err(Refusal::Holidays));
    }
    assert_eq!(results_due(LAST_DAY, &[]), Err(Refusal::NoSuchDay));
}

/// A day of the calendar is a day of a station's calls.
#[test]
fn a_sheet_has_a_date() {
    let entered = Date {
        year: 2026,
        month: 11,
        day: 17,
    };
    let mut station = Station::open(Station::WHEAT).unwrap();
    let sheet = [1300, 1300, 1300, -1, -1, -1].repeat(6);
    let day = day_from_date(entered).unwrap();
    station.sheet(day, 0, &sheet).unwrap();
    assert_eq!(date_from_day(station.day() as u32), Ok(entered));
}

/// A record of a lot at basis 1200.
fn sublot(figure: i32, tonnes: i32) -> Sublot {
    Sublot {
        figure,
        basis: 1200,
        tonnes,
    }
}

/// A sublot may stand in one record or in several, and these in any order.
#[test]
fn a_lot_in_any_records() {
    let whole = [sublot(44, 11), sublot(45, 9), sublot(38, 1)];
    let lot = ship_lot(&whole).unwrap();
    let statement = LotStatement {
        basis: 1200,
        lowest: 38,
        highest: 45,
        mean: 44,
        tonnes: 21,
        weighted_sum: 927,
    };
    assert_eq!(lot, statement);
    for order in ORDERS {
        let records = order.map(|place| whole[place]);
        assert_eq!(ship_lot(&records), Ok(lot), "{order:?}");
        // 5 of the 11 tonnes at 44 in a record of their own.
        let rest = records.map(|record| match record.figure {
            44 => sublot(44, 6),
            _ => record,
        });
        let parts = [&rest[..], &[sublot(44, 5)]].concat();
        assert_eq!(ship_lot(&parts), Ok(lot), "{parts:?}");
    }
    let singles = [
        vec![sublot(44, 1); 11],
        vec![sublot(45, 1); 9],
        vec![sublot(38, 1)],
    ];
    assert_eq!(ship_lot(&singles.concat()), Ok(lot));
}

#[test]
fn the_largest_lot() {
    let full = Sublot {
        figure: 1000,
        basis: 5000,
        tonnes: 1_000_000,
    };
    let lot = ship_lot(&[full; LOT_RECORDS]).unwrap();
    let sums = (lot.weighted_sum, lot.tonnes);
    assert_eq!(sums, (500_000_000_000, 500_000_000));
    let refused = ship_lot(&[full; LOT_RECORDS + 1]);
    assert_eq!(refused, Err(Refusal::LotSize));
}

#[test]
fn what_a_lot_refuses() {
    let good = sublot(44, 11);
    let at = |basis| Sublot { basis, ..good };
    assert_eq!(ship_lot(&[]), Err(Refusal::LotSize));
    for bad in [
        sublot(-1, 11),
        sublot(1001, 11),
        at(-1),
        at(5001),
        sublot(44, 0),
        sublot(44, -11),
        sublot(44, 1_000_001),
    ] {
        let unlike = at(1350);
        for records in [[bad, good, unlike], [good, unlike, bad], [bad, bad, bad]] {
            assert_eq!(ship_lot(&records), Err(Refusal::Sublot), "{records:?}");
        }
        let many = [bad; LOT_RECORDS + 1];
        assert_eq!(ship_lot(&many), Err(Refusal::LotSize), "{bad:?}");
    }
    for records in [[good, at(1201)], [at(1199), good], [at(0), at(5000)]] {
        assert_eq!(ship_lot(&records), Err(Refusal::UnlikeBasis), "{records:?}");
    }
}
