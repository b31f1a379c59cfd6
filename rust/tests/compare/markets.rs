//! Random market tests, biased to every branch of the rules, and what they met.

use grain_model::{Certificate, Line, LinePhase, PastSet, Station};

use crate::history;
use crate::lent::Difference;
use crate::lists::{Lean, a_day, a_line, line_of, seen};
use crate::met::Met;
use crate::rng::Rng;
use crate::stations::{Request, Subject, Trial};

/// The float nearest to so many hundredths, or one beside it, or beside the half above it.
fn a_float(rng: &mut Rng, hundredths: i64) -> u32 {
    let half = if rng.chance(30) { 0.5 } else { 0.0 };
    let float = ((hundredths as f64 + half) / 100.0) as f32;
    let beside = if rng.chance(60) { 0 } else { rng.range(-2, 2) };
    float.to_bits().wrapping_add(beside as u32)
}

/// Floats at and beside the ends of what number 9 allows, and what is no finite number.
pub const EDGE_FLOATS: [u32; 16] = [
    0,
    1,
    0x007F_FFFF,
    0x0080_0000,
    0x8000_0000,
    0x8000_0001,
    0xBF80_0000,
    0x42C7_FFFF,
    0x42C8_0000,
    0x42C8_0001,
    0x7F7F_FFFF,
    0x7F80_0000,
    0xFF80_0000,
    0x7F80_0001,
    0x7FC0_0000,
    0xFFFF_FFFF,
];

/// B, the kind of basis and its number.
fn a_basis(rng: &mut Rng, row: i64) -> (i64, u32, i32) {
    let standard = if row == 0 { 1200 } else { 0 };
    let given = match rng.below(10) {
        0..6 => rng.range(0, 5000),
        6 => standard,
        _ => rng.pick(&[-1, 0, 1, 1199, 1200, 1201, 1400, 4999, 5000, 5001]),
    };
    match rng.below(32) {
        0..8 => (standard, 0, rng.bits() as i32),
        8..16 => (0, 1, rng.bits() as i32),
        16..24 => (given, 2, given as i32),
        24..28 => (given, 3, given as i32),
        28..31 => {
            let given = rng.pick(&[i32::MIN, i32::MAX, -5000, 10_000, 65_536]);
            (i64::from(given), rng.pick(&[2, 3]), given)
        }
        // A kind that there isn't, mostly with a number that would do.
        _ => {
            let kind = rng.pick(&[4, 5, 7, 8, 255, 256, 258, 1 << 31, u32::MAX]);
            (given, kind, given as i32)
        }
    }
}

/// What is asked for, half of wheat's tests for gluten; also numbers of no class.
fn an_asked(rng: &mut Rng, row: i64) -> u32 {
    if !rng.chance(if row == 0 { 50 } else { 8 }) {
        return 0;
    }
    match rng.below(20) {
        0..17 => rng.pick(&[1, 2]),
        17 => 3,
        18 => rng.pick(&[4, 255, 256, 257, 258, 65_537, 1 << 31, u32::MAX]),
        _ => rng.bits() as u32,
    }
}

/// Mostly a scan that has what is asked for.
fn a_scan_kind(rng: &mut Rng, row: i64, gluten: bool) -> u32 {
    match (rng.below(100), row) {
        (0..94, 0) if gluten => rng.pick(&[0, 3, 3, 3, 3, 3, 3, 3]),
        (0..94, 0) => rng.pick(&[0, 3]),
        (0..94, _) => 1,
        (94..97, 0) => 1,
        (94..97, _) => rng.pick(&[0, 3]),
        _ => rng.pick(&[2, 4, 255, 256, 257, 258, 259, 1 << 31, u32::MAX]),
    }
}

/// The gluten intercept of a protein intercept.
fn derived(intercept: i64) -> i64 {
    (3029 * intercept.abs() + 500) / 1000 * intercept.signum()
}

/// Floats of this reading; one that isn't asked for is often another.
fn some_floats(rng: &mut Rng, asked: usize, reading: i64) -> [u32; 3] {
    let mut floats = [0; 3].map(|_| match rng.chance(90) {
        true => a_float(rng, reading),
        false => rng.pick(&EDGE_FLOATS),
    });
    let other = (asked + rng.pick(&[1, 2])) % 3;
    let any = rng.range(0, 10_000);
    match rng.below(10) {
        0 | 1 => floats[other] = rng.pick(&EDGE_FLOATS),
        2 | 3 => floats[other] = a_float(rng, any),
        _ => {}
    }
    floats
}

/// A market test of any kind on a station.
pub fn market(trial: &mut Trial, subject: &mut Subject, lean: Lean) -> Result<(), Difference> {
    let station = seen(subject);
    let rng = &mut trial.rng;
    let line = a_line(rng, &station);
    let held = line_of(&station, line);
    let day = a_day(rng, &station, held, lean);
    let asked = an_asked(rng, station.row);
    let gluten = asked > 0;
    let standard = if station.row == 0 { 1200 } else { 0 };
    let (b, basis_kind, basis) = match gluten && rng.chance(70) {
        true => (standard, 0, rng.bits() as i32),
        false => a_basis(rng, station.row),
    };
    // The largest h whose value at B is not above 10000. Gluten isn't converted.
    let largest = match !gluten && (0..10_000).contains(&b) {
        true => 10_000 * (10_000 - standard) / (10_000 - b),
        false => 10_000,
    };
    let h = match rng.below(10) {
        0..5 => rng.range(200, 2500),
        5 => rng.range(0, 10_000),
        6 => rng.pick(&[-1, 0, 10_000, 10_001]),
        7 => rng.range(0, 999) * 10 + 5,
        _ => largest + rng.range(-1, 1),
    };
    let (place, intercept) = match gluten {
        true => (1, derived(held.intercept)),
        false => (line as usize % 3, held.intercept),
    };
    let request = Request {
        day,
        line,
        scan_kind: a_scan_kind(rng, station.row, gluten),
        floats: some_floats(rng, place, (h - intercept).clamp(0, 10_000)),
        asked,
        basis_kind,
        basis,
    };
    let answer = trial.market(subject, request)?;
    let met = &mut trial.met;
    // How a line came to its phase is known from its opening on.
    if let (Some(_), Err(number)) = (&subject.book, answer) {
        history::count_not_open(met, &subject.history, request, number);
    }
    count_newest(met, held, request, answer);
    match gluten {
        true => count_gluten(met, &station, held, request, answer),
        false => count_line_figure(met, &station, held, request, answer),
    }
    Ok(())
}

fn is_fault(scan_kind: u32) -> bool {
    ![0, 1, 3].contains(&scan_kind)
}

/// Number 9 refuses this float.
fn bad(float: u32) -> bool {
    grain_model::reading(float).is_err()
}

/// The age of the line's newest set on the day of the request.
fn age(line: &Line, request: Request) -> Option<i64> {
    let newest = line.newest.sets().first()?;
    Some(i64::from(request.day) - newest.day)
}

/// A zero set is the newest set of a certificate and of 13 too, and what isn't zero is not looked at.
fn count_newest(met: &mut Met, line: &Line, request: Request, answer: Result<Certificate, u8>) {
    let age = |set: &PastSet| i64::from(request.day) - set.day;
    let nonzero = line.nonzero.sets().first().map(age);
    match answer {
        Ok(_) => {
            let zero = line.newest.sets()[0].is_zero();
            met.branch_if(zero, "market: certified, the newest set is zero");
            met.branch_if(nonzero.is_none(), "market: certified, no non-zero set");
            met.branch_if(
                nonzero > Some(7),
                "market: certified, the newest non-zero set more than 7 days old",
            );
        }
        Err(13) => met.branch_if(
            nonzero.is_some_and(|age| age <= 7),
            "market: 13, the newest non-zero set at most 7 days old",
        ),
        Err(_) => {}
    }
}

/// The branches of a market test that asks for gluten.
fn count_gluten(
    met: &mut Met,
    station: &Station,
    line: &Line,
    request: Request,
    answer: Result<Certificate, u8>,
) {
    match answer {
        Ok(certificate) => count_gluten_certificate(met, line, request, certificate),
        Err(3) if station.row == 0 && request.line == 1 => {
            met.branch("market: gluten asked on wheat line 1");
        }
        Err(8) => count_no_gluten(met, station, request),
        Err(23) => count_gluten_class(met, line, request),
        Err(24) => count_gluten_basis(met, line, request),
        Err(9) => met.branch_if(
            !bad(request.floats[0]),
            "market: gluten's float refused, protein's not",
        ),
        Err(11) => count_gluten_corrected(met, line, request),
        Err(12) => met.branch("market: gluten, 12"),
        Err(25) => met.branch("market: gluten, 25"),
        Err(26) => met.branch("market: gluten, 26"),
        Err(13) => met.branch_if(
            age(line, request) == Some(8),
            "market: gluten, newest set 8 days old",
        ),
        _ => {}
    }
}

fn count_gluten_certificate(
    met: &mut Met,
    line: &Line,
    request: Request,
    certificate: Certificate,
) {
    met.branch(match request.asked {
        1 => "market: certified, gluten of Hard Red Winter",
        _ => "market: certified, gluten of Hard Red Spring",
    });
    met.branch_if(
        bad(request.floats[0]),
        "market: protein float not looked at",
    );
    met.branch_if(
        age(line, request) == Some(7),
        "market: gluten, newest set 7 days old",
    );
    let h = grain_model::reading(request.floats[1]).unwrap() + certificate.intercept;
    met.branch_if(h == 0, "market: gluten's h is 0");
    met.branch_if(h == 10_000, "market: gluten's h is 10000");
    met.branch_if(h % 10 == 5, "market: gluten's figure rounded at a half");
    match line.intercept {
        500 => met.branch("market: derived intercept rounded at a half, above zero"),
        -500 => met.branch("market: derived intercept rounded at a half, below zero"),
        1000 => met.branch("market: derived intercept 3029"),
        -1000 => met.branch("market: derived intercept -3029"),
        _ => {}
    }
}

/// Refused by 8.
fn count_no_gluten(met: &mut Met, station: &Station, request: Request) {
    if station.row == 1 {
        met.branch(match request.line {
            0 => "market: gluten asked on a corn station, line 0",
            1 => "market: gluten asked on a corn station, line 1",
            _ => "market: gluten asked on a corn station, line 2",
        });
        met.branch_if(
            request.scan_kind == 3,
            "market: gluten asked of a gluten scan on a corn station",
        );
        return;
    }
    match request.scan_kind {
        0 => met.branch("market: gluten asked, no gluten float"),
        1 => met.branch("market: gluten asked of a corn scan"),
        _ => met.branch("market: gluten asked, fault"),
    }
    met.branch_if(
        request.scan_kind == 0 && request.asked > 2 && request.basis_kind > 0,
        "market: a missing gluten float before class and basis",
    );
}

const BEFORE_OPEN: &str = "market: gluten's class or basis before a line that isn't open";

/// Refused by 23.
fn count_gluten_class(met: &mut Met, line: &Line, request: Request) {
    met.branch(match request.asked {
        3 => "market: gluten of another class",
        _ => "market: asked above 3",
    });
    met.branch_if(
        request.basis_kind > 0,
        "market: gluten's class before its basis",
    );
    met.branch_if(
        request.basis_kind == 0 && bad(request.floats[1]),
        "market: gluten's class before its float",
    );
    met.branch_if(line.phase() != LinePhase::Open, BEFORE_OPEN);
}

/// Refused by 24.
fn count_gluten_basis(met: &mut Met, line: &Line, request: Request) {
    let outside = !(0..=5000).contains(&request.basis);
    match (request.basis_kind, request.basis) {
        (1, _) => met.branch("market: gluten basis dry"),
        (2, 1200) => met.branch("market: gluten basis specified 1200"),
        (2, 1400) => met.branch("market: gluten basis specified 1400"),
        (3, 1400) => met.branch("market: gluten basis as-is 1400"),
        (2 | 3, _) => met.branch_if(outside, "market: gluten basis outside 0 to 5000"),
        _ => met.branch("market: gluten with a kind of basis that there isn't"),
    }
    met.branch_if(
        bad(request.floats[1]),
        "market: gluten's basis before its float",
    );
    met.branch_if(line.phase() != LinePhase::Open, BEFORE_OPEN);
}

/// Refused by 11.
fn count_gluten_corrected(met: &mut Met, line: &Line, request: Request) {
    let reading = grain_model::reading(request.floats[1]).unwrap();
    let within = (0..=10_000).contains(&(reading + line.intercept));
    let h = reading + derived(line.intercept);
    met.branch_if(
        within && h > 10_000,
        "market: gluten's h above 10000 where protein's wouldn't be",
    );
    met.branch_if(
        within && h < 0,
        "market: gluten's h below 0 where protein's wouldn't be",
    );
    match line.phase() {
        LinePhase::Open => {}
        LinePhase::New => met.branch("market: gluten's h out of bounds before 12"),
        LinePhase::Adjusted => met.branch("market: gluten's h out of bounds before 25"),
        LinePhase::Shut => met.branch("market: gluten's h out of bounds before 26"),
    }
}

/// The line's value at B is above 10000: 14, where no other number comes first.
pub fn too_high(station: &Station, line: &Line, request: Request) -> bool {
    let standard = if station.row == 0 { 1200 } else { 0 };
    let basis = match request.basis_kind {
        0 => standard,
        1 => 0,
        _ => i64::from(request.basis),
    };
    let float = request.floats[request.line as usize % 3];
    grain_model::reading(float).is_ok_and(|reading| {
        (reading + line.intercept) * (10_000 - basis) > 10_000 * (10_000 - standard)
    })
}

/// The numbers beside 12, 25 and 26 on a line that isn't open: 11 before them, 14 after them.
fn count_beside(
    met: &mut Met,
    station: &Station,
    line: &Line,
    request: Request,
    answer: Result<Certificate, u8>,
) {
    let high = too_high(station, line, request);
    match (answer, line.phase()) {
        (Err(11), LinePhase::New) => met.branch("market: 11 before 12"),
        (Err(11), LinePhase::Adjusted) => met.branch("market: 11 before 25"),
        (Err(11), LinePhase::Shut) => met.branch("market: 11 before 26"),
        (Err(12), _) => met.branch_if(high, "market: 12, value at B above 10000"),
        (Err(25), _) => met.branch_if(high, "market: 25, value at B above 10000"),
        (Err(26), _) => met.branch_if(high, "market: 26, value at B above 10000"),
        _ => {}
    }
}

/// The branches of a market test that asks for the line's own figure.
fn count_line_figure(
    met: &mut Met,
    station: &Station,
    line: &Line,
    request: Request,
    answer: Result<Certificate, u8>,
) {
    count_beside(met, station, line, request, answer);
    let age = age(line, request);
    let fault = is_fault(request.scan_kind) && line.phase() != LinePhase::Open;
    let refused = |number| answer == Err(number);
    met.branch_if(
        refused(8) && fault,
        "market: fault on a line that isn't open",
    );
    met.branch_if(
        refused(8) && request.scan_kind < 2,
        "market: another grain's scan",
    );
    met.branch_if(
        refused(8) && request.scan_kind == 3,
        "market: a gluten scan on a corn station",
    );
    let no_scan = refused(8) && request.scan_kind > 255;
    met.branch_if(no_scan, "market: no such kind of scan");
    let gluten_scan = request.scan_kind == 3;
    met.branch_if(
        gluten_scan && refused(9) && !bad(request.floats[1]),
        "market: protein's float refused, gluten's not",
    );
    met.branch_if(
        gluten_scan && answer.is_ok() && bad(request.floats[1]),
        "market: gluten float not looked at",
    );
    let no_basis = request.basis_kind > 3 && (0..=5000).contains(&request.basis);
    met.branch_if(refused(10) && no_basis, "market: no such kind of basis");
    met.branch_if(
        refused(9) && no_basis,
        "market: a float out of bounds before the kind of basis",
    );
    let not_open = line.phase() != LinePhase::Open;
    met.branch_if(
        refused(10) && no_basis && not_open,
        "market: the kind of basis before a line that isn't open",
    );
    met.branch_if(
        refused(13) && age == Some(8),
        "market: newest set 8 days old",
    );
    let Ok(certificate) = answer else {
        return;
    };
    met.branch_if(age == Some(7), "market: newest set 7 days old");
    met.branch(match (station.row, request.line) {
        (0, _) => "market: certified, wheat",
        (_, 0) => "market: certified, corn protein",
        (_, 1) => "market: certified, corn oil",
        _ => "market: certified, corn starch",
    });
    met.branch(match request.basis_kind {
        0 => "market: standard basis",
        1 => "market: dry basis",
        2 => "market: specified basis",
        _ => "market: as-is basis",
    });
    let given = request.basis_kind > 1 && [0, 5000].contains(&certificate.basis);
    met.branch_if(given, "market: basis 0 or 5000 given");
    let place = request.line as usize;
    let reading = grain_model::reading(request.floats[place]).unwrap();
    let h = reading + certificate.intercept;
    met.branch_if(h == 0, "market: h is 0");
    met.branch_if(h == 10_000, "market: h is 10000");
    let standard = if station.row == 0 { 1200 } else { 0 };
    let at_most = h * (10_000 - certificate.basis) == 10_000 * (10_000 - standard);
    met.branch_if(at_most, "market: value at B is 10000");
    let others = station.row == 1 && request.floats.iter().any(|&float| bad(float));
    met.branch_if(others, "market: other floats of the corn set damaged");
}
