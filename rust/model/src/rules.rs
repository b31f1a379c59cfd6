//! The numbers that the rules compare with (sections "Product rows", "Control charts",
//! "The calendar", "Ship lots", "Refused calls"). They are passed to every rule, so that a comparison can show
//! that it notices each of them being off by one.

use crate::Refusal;

/// Per line: pair limit, sample limit, range limit; averages for one, two, three, five sets;
/// check limit.
#[derive(Clone, Debug)]
pub struct Limits {
    pub pair: i64,
    pub sample: i64,
    pub range: i64,
    pub one: i64,
    pub two: i64,
    pub three: i64,
    pub five: i64,
    pub check: i64,
}

/// A product row: samples a sheet, standard basis A, lines.
#[derive(Clone, Debug)]
pub struct Product {
    pub samples: i64,
    pub standard: i64,
    pub lines: Vec<Limits>,
}

/// Rows: average absolute, tolerance, run; range absolute, tolerance.
#[derive(Clone, Debug)]
pub struct ChartRow {
    pub absolute: i64,
    pub tolerance: i64,
    pub run: i64,
    pub range_absolute: i64,
    pub range_tolerance: i64,
}

/// The calendar.
#[derive(Clone, Debug)]
pub struct CalendarRules {
    /// 1 January 2000 is day 0 ..
    pub first_year: i64,
    /// .. a Saturday.
    pub first_weekday: i64,
    /// Weekdays are numbered from Monday, 1, to Sunday, 7.
    pub weekdays: i64,
    /// January to December, February in a year that isn't a leap year.
    pub month_lengths: [i64; 12],
    pub leap_february: i64,
    /// Every fourth year is a leap year ..
    pub leap_years: i64,
    /// .. but of the full centuries ..
    pub century: i64,
    /// .. only every fourth.
    pub leap_centuries: i64,
    /// Up to day 99999; number 27.
    pub last_day: i64,
    /// Number 28: A holiday lies outside 0..99999.
    pub last_holiday: i64,
    /// Monday to Friday are working days unless listed.
    pub working_weekdays: i64,
    /// Monitoring results are due within 2 working days.
    pub due_days: i64,
}

/// The least and the most of a number that is not refused.
#[derive(Clone, Copy, Debug)]
pub struct Bounds {
    pub least: i64,
    pub most: i64,
}

/// Ship lots.
#[derive(Clone, Debug)]
pub struct LotRules {
    /// Number 29: No record or more than 500.
    pub records: Bounds,
    /// Number 30: Tonnes outside 1..1000000 ..
    pub tonnes: Bounds,
    /// .. figure outside 0..1000 ..
    pub figure: Bounds,
    /// .. or basis outside 0..5000.
    pub basis: Bounds,
}

#[derive(Clone, Debug)]
pub struct Rules {
    pub products: Vec<Product>,
    pub charts: Vec<ChartRow>,
    pub calendar: CalendarRules,
    pub lots: LotRules,
    /// Its day is 0..99999; number 2.
    pub last_day: i64,
    /// Past sets more than 14 days old are ignored.
    pub past_days: i64,
    /// Number 13: The line's newest set is more than 7 days old.
    pub newest_days: i64,
    /// Intercepts lie in −1000..1000.
    pub intercept: i64,
    /// |S| is at most 11000 times N.
    pub set_average: i64,
    /// Number 5: A sheet number lies outside 0..10000.
    pub sheet_number: i64,
    /// Number 10: B lies outside 0..5000.
    pub basis: i64,
    /// Number 11: h lies outside 0..10000.
    pub corrected: i64,
    /// Number 14: The unrounded value at B is above 10000.
    pub at_basis: i64,
    /// The gluten intercept is the protein intercept times 3.029: thousandths.
    pub gluten_factor: i64,
    /// A gluten certificate carries 1400 as B.
    pub gluten_basis: i64,
    /// Its last week is 0..9999; number 19.
    pub last_week: i64,
    /// A set has 1 to 5 pairs; numbers 18 and 20.
    pub pairs: i64,
    /// The plot's magnitude is at most 10000.
    pub chart_plot: i64,
    /// Range 0..20000.
    pub chart_range: i64,
    /// Number 21: A result lies outside 0..10000.
    pub chart_result: i64,
    /// Number 15: The text exceeds 65536 bytes.
    pub text_bytes: i64,
    /// Number 22: An output buffer for a line is shorter than 40 bytes.
    pub line_bytes: i64,
}

impl Bounds {
    pub fn outside(self, number: i64) -> bool {
        number < self.least || number > self.most
    }
}

impl Rules {
    /// The numbers as the rules have them.
    pub fn in_force() -> Rules {
        Rules {
            products: vec![
                // Row 0, wheat: 6 samples a sheet, standard basis A = 1200, one line.
                Product {
                    samples: 6,
                    standard: 1200,
                    lines: vec![limits([30, 40, 50], [10, 7, 5, 3], 5)],
                },
                // Row 1, corn: 4 samples, A = 0: protein, oil, starch.
                Product {
                    samples: 4,
                    standard: 0,
                    lines: vec![
                        limits([30, 40, 50], [15, 10, 7, 5], 7),
                        limits([40, 50, 60], [15, 10, 7, 6], 7),
                        limits([90, 80, 150], [35, 25, 20, 15], 20),
                    ],
                },
            ],
            charts: vec![
                chart_row([20, 15, 10], [60, 40]), // wheat protein
                chart_row([25, 20, 10], [70, 50]), // barley protein
                chart_row([25, 20, 15], [80, 60]), // soybean protein
                chart_row([20, 15, 10], [60, 45]), // soybean oil
            ],
            calendar: calendar_rules(),
            lots: lot_rules(),
            last_day: 99_999,
            past_days: 14,
            newest_days: 7,
            intercept: 1_000,
            set_average: 11_000,
            sheet_number: 10_000,
            basis: 5_000,
            corrected: 10_000,
            at_basis: 10_000,
            gluten_factor: 3_029,
            gluten_basis: 1_400,
            last_week: 9_999,
            pairs: 5,
            chart_plot: 10_000,
            chart_range: 20_000,
            chart_result: 10_000,
            text_bytes: 65_536,
            line_bytes: 40,
        }
    }

    /// The product row, if it exists.
    pub fn product(&self, row: i64) -> Option<&Product> {
        self.products.get(usize::try_from(row).ok()?)
    }

    /// Number 2: The day is below the station's day or above 99999.
    pub(crate) fn day(&self, last: i64, day: u32) -> Result<i64, Refusal> {
        let day = i64::from(day);
        if day < last || day > self.last_day {
            return Err(2);
        }
        Ok(day)
    }

    /// The row and the asked line. Number 3: The grain doesn't have that line.
    pub(crate) fn asked(&self, row: i64, line: u64) -> Result<(&Product, usize), Refusal> {
        let product = self.product(row).ok_or(0)?;
        let line = usize::try_from(line).map_err(|_| 3)?;
        if line >= product.lines.len() {
            return Err(3);
        }
        Ok((product, line))
    }

    /// The chart row, if it exists.
    pub fn chart(&self, row: i64) -> Option<&ChartRow> {
        self.charts.get(usize::try_from(row).ok()?)
    }
}

fn limits([pair, sample, range]: [i64; 3], averages: [i64; 4], check: i64) -> Limits {
    let [one, two, three, five] = averages;
    Limits {
        pair,
        sample,
        range,
        one,
        two,
        three,
        five,
        check,
    }
}

fn chart_row([absolute, tolerance, run]: [i64; 3], range: [i64; 2]) -> ChartRow {
    let [range_absolute, range_tolerance] = range;
    ChartRow {
        absolute,
        tolerance,
        run,
        range_absolute,
        range_tolerance,
    }
}

fn calendar_rules() -> CalendarRules {
    CalendarRules {
        first_year: 2000,
        first_weekday: 6,
        weekdays: 7,
        month_lengths: [31, 28, 31, 30, 31, 30, 31, 31, 30, 31, 30, 31],
        leap_february: 29,
        leap_years: 4,
        century: 100,
        leap_centuries: 400,
        last_day: 99_999,
        last_holiday: 99_999,
        working_weekdays: 5,
        due_days: 2,
    }
}

fn lot_rules() -> LotRules {
    let bounds = |least, most| Bounds { least, most };
    LotRules {
        records: bounds(1, 500),
        tonnes: bounds(1, 1_000_000),
        figure: bounds(0, 1_000),
        basis: bounds(0, 5_000),
    }
}
