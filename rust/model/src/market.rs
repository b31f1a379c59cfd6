//! Sections "Market test and moisture basis" and "Wet gluten".

use crate::Refusal;
use crate::reading::reading;
use crate::rules::{Product, Rules};
use crate::station::{LinePhase, PastSet, Station};

/// A scan is what the analyser answered: a wheat value, a corn set of protein, oil and starch, or
/// a fault code (0 to 255). The floats stand as their bits.
#[derive(Clone, Copy, Debug, PartialEq, Eq)]
pub enum Scan {
    Wheat(u32),
    /// A wheat scan may bring a gluten float too: protein, gluten.
    WheatGluten(u32, u32),
    Corn([u32; 3]),
    Fault,
}

/// A request asks for the line's own figure, or for gluten and then names the class.
#[derive(Clone, Copy, Debug, PartialEq, Eq)]
pub enum Asked {
    LineFigure,
    Gluten(WheatClass),
}

#[derive(Clone, Copy, Debug, PartialEq, Eq)]
pub enum WheatClass {
    HardRedWinter,
    HardRedSpring,
    Other,
}

/// Basis B: standard, dry (0), specified, or as-is with the official moisture.
#[derive(Clone, Copy, Debug, PartialEq, Eq)]
pub enum Basis {
    Standard,
    Dry,
    Specified(i32),
    AsIs(i32),
    /// A kind of basis that there isn't.
    Unknown,
}

/// The certificate carries the day of the line's newest set, the intercept, B and two figures in
/// tenths.
#[derive(Clone, Copy, Debug, PartialEq, Eq)]
pub struct Certificate {
    pub set_day: i64,
    pub intercept: i64,
    pub basis: i64,
    pub corrected: i64,
    pub at_basis: i64,
}

/// The float of the asked line. 8: The scan is a fault or another grain's.
fn line_float(row: i64, line: usize, scan: Scan) -> Result<u32, Refusal> {
    match (row, scan) {
        (0, Scan::Wheat(protein) | Scan::WheatGluten(protein, _)) => Ok(protein),
        (1, Scan::Corn(floats)) => Ok(floats[line]),
        _ => Err(8),
    }
}

/// The gluten float, which is that of wheat. 8: also a scan without it, as every corn scan.
fn gluten_float(row: i64, scan: Scan) -> Result<u32, Refusal> {
    match (row, scan) {
        (0, Scan::WheatGluten(_, gluten)) => Ok(gluten),
        _ => Err(8),
    }
}

/// The protein intercept times 3.029, rounded to a hundredth, halves away from zero.
fn gluten_intercept(rules: &Rules, protein: i64) -> i64 {
    let thousandths = rules.gluten_factor * protein.abs();
    (2 * thousandths + 1_000) / 2_000 * protein.signum()
}

/// B in whole hundredths. 10: B lies outside 0..5000; so does the B of no kind.
fn hundredths(rules: &Rules, product: &Product, basis: Basis) -> Result<i64, Refusal> {
    let b = match basis {
        Basis::Standard => product.standard,
        Basis::Dry => 0,
        Basis::Specified(moisture) | Basis::AsIs(moisture) => i64::from(moisture),
        Basis::Unknown => return Err(10),
    };
    if !(0..=rules.basis).contains(&b) {
        return Err(10);
    }
    Ok(b)
}

/// Rounded once to the nearest tenth, halves up: `above` over `below` hundredths, both positive
/// or `above` zero, as the floor of a tenth of it plus one half.
fn tenths(above: i64, below: i64) -> i64 {
    (2 * above + 10 * below) / (20 * below)
}

/// What a market test is judged by, beside the numbers 0, 2 and 3.
pub struct Request<'a> {
    pub row: i64,
    pub product: &'a Product,
    pub day: i64,
    pub line: usize,
    pub intercept: i64,
    pub phase: LinePhase,
    pub newest: Option<PastSet>,
}

impl Request<'_> {
    /// The day of the line's newest set, a zero one too. 12: The line is new. In its place 25: Check due
    /// after an adjustment, and 26: Check due after shutting. 13: That set is too old.
    fn set_day(&self, rules: &Rules) -> Result<i64, Refusal> {
        let newest = match (self.phase, self.newest) {
            (LinePhase::Open, Some(newest)) => newest,
            (LinePhase::Adjusted, _) => return Err(25),
            (LinePhase::Shut, _) => return Err(26),
            (LinePhase::New, _) => return Err(12),
            (LinePhase::Open, None) => unreachable!("an open line has a set"),
        };
        if self.day - newest.day > rules.newest_days {
            return Err(13);
        }
        Ok(newest.day)
    }
}

/// The corrected value h is reading plus intercept. 11: h lies outside 0..10000.
fn corrected(rules: &Rules, reading: i64, intercept: i64) -> Result<i64, Refusal> {
    let h = reading + intercept;
    if !(0..=rules.corrected).contains(&h) {
        return Err(11);
    }
    Ok(h)
}

/// Numbers 8, 23, 24, 9 to 11, 12 or in its place 25 or 26, 13 and 14 in this order, then the
/// certificate.
pub fn certify(
    rules: &Rules,
    request: &Request,
    scan: Scan,
    asked: Asked,
    basis: Basis,
) -> Result<Certificate, Refusal> {
    match asked {
        Asked::LineFigure => certify_line(rules, request, scan, basis),
        Asked::Gluten(class) => certify_gluten(rules, request, scan, class, basis),
    }
}

/// Gluten is tested under the protein line's permission and reported at 14.0 percent only, not
/// converted: the one figure twice.
fn certify_gluten(
    rules: &Rules,
    request: &Request,
    scan: Scan,
    class: WheatClass,
    basis: Basis,
) -> Result<Certificate, Refusal> {
    let float = gluten_float(request.row, scan)?;
    // 23: Gluten asked with another class.
    if class == WheatClass::Other {
        return Err(23);
    }
    // 24: Gluten with a basis not asked for as standard.
    if basis != Basis::Standard {
        return Err(24);
    }
    let reading = reading(float)?;
    let intercept = gluten_intercept(rules, request.intercept);
    let h = corrected(rules, reading, intercept)?;
    let set_day = request.set_day(rules)?;
    let figure = tenths(h, 1);
    Ok(Certificate {
        set_day,
        intercept,
        basis: rules.gluten_basis,
        corrected: figure,
        at_basis: figure,
    })
}

fn certify_line(
    rules: &Rules,
    request: &Request,
    scan: Scan,
    basis: Basis,
) -> Result<Certificate, Refusal> {
    let float = line_float(request.row, request.line, scan)?;
    let reading = reading(float)?;
    let b = hundredths(rules, request.product, basis)?;
    let h = corrected(rules, reading, request.intercept)?;
    let set_day = request.set_day(rules)?;
    // h times (10000 − B)/(10000 − A); 14 looks at the value before rounding.
    let above = h * (10_000 - b);
    let below = 10_000 - request.product.standard;
    if above > rules.at_basis * below {
        return Err(14);
    }
    Ok(Certificate {
        set_day,
        intercept: request.intercept,
        basis: b,
        corrected: tenths(h, 1),
        at_basis: tenths(above, below),
    })
}

impl Station {
    /// A market test: numbers 0, 2, 3, 8 to 14 and 23 to 26. A certified one moves the station's
    /// day.
    pub fn market(
        &mut self,
        rules: &Rules,
        day: u32,
        line: u64,
        scan: Scan,
        asked: Asked,
        basis: Basis,
    ) -> Result<Certificate, Refusal> {
        let day = self.called_on(rules, day)?;
        let (product, place) = rules.asked(self.row, line)?;
        let line = &self.lines[place];
        let request = Request {
            row: self.row,
            product,
            day,
            line: place,
            intercept: line.intercept,
            phase: line.phase(),
            newest: line.newest.sets().first().copied(),
        };
        let certificate = certify(rules, &request, scan, asked, basis)?;
        self.day = day;
        Ok(certificate)
    }
}
