//! Ship lots: the comparison, over lots of sizes around the bounds with numbers on both sides of every
//! bound; and each lot again in another order, with a sublot in several records, and tonne by tonne.

use grain::{Sublot, ffi};
use grain_model::LotStatement;
use grain_model::lot::{bad_sublot, ship_lot, unlike_basis};
use grain_model::rules::LotRules;

use crate::lent::{Difference, Lent, same};
use crate::met::Met;
use crate::rng::Rng;
use crate::stations::{Trial, number};

const MOST_RECORDS: usize = 500;
const MOST_TONNES: i32 = 1_000_000;
const LARGEST_FIGURE: i32 = 1000;
const LARGEST_BASIS: i32 = 5000;

type Answer = Result<LotStatement, u8>;

/// The C interface's answer to a lot.
fn lot_answer(answer: Answer) -> ffi::Lot {
    match answer {
        Ok(lot) => ffi::Lot {
            accepted: 1,
            number: 0,
            basis: lot.basis as i32,
            lowest: lot.lowest as u32,
            highest: lot.highest as u32,
            mean: lot.mean as u32,
            tonnes: lot.tonnes as u64,
            weighted_sum: lot.weighted_sum as u64,
        },
        Err(number) => ffi::Lot {
            number: number.into(),
            ..ffi::Lot::default()
        },
    }
}

/// The wrapper's statement in the model's terms.
fn told(lot: grain::LotStatement) -> LotStatement {
    LotStatement {
        basis: lot.basis.into(),
        lowest: lot.lowest.into(),
        highest: lot.highest.into(),
        mean: lot.mean.into(),
        tonnes: lot.tonnes as i64,
        weighted_sum: lot.weighted_sum as i64,
    }
}

/// The records in the model's terms.
fn by_model(records: &[Sublot]) -> Vec<grain_model::Sublot> {
    let record = |record: &Sublot| grain_model::Sublot {
        figure: record.figure.into(),
        basis: record.basis.into(),
        tonnes: record.tonnes.into(),
    };
    records.iter().map(record).collect()
}

/// The records as far as they are worth showing.
fn shown(records: &[Sublot]) -> String {
    let first: Vec<[i32; 3]> = records
        .iter()
        .take(50)
        .map(|record| [record.figure, record.basis, record.tonnes])
        .collect();
    format!(
        "a lot of {} records (figure, basis, tonnes) {first:?}",
        records.len()
    )
}

/// How a lot is entered once more.
#[derive(Clone, Copy, Debug)]
enum Again {
    Moved,
    Split,
    SingleTonnes,
}

impl Again {
    /// The records in this other way. None where that changes nothing or there are too many then.
    fn records(self, rng: &mut Rng, records: &[Sublot]) -> Option<Vec<Sublot>> {
        match self {
            Again::Moved => moved(rng, records),
            Again::Split => split(rng, records),
            Again::SingleTonnes => single_tonnes(records),
        }
    }
}

impl Trial {
    pub fn ship_lot(&mut self, records: &[Sublot]) -> Result<Answer, Difference> {
        let told_records = by_model(records);
        let answer = match self.wrong {
            Some(wrong) => wrong.ship_lot(&self.rules, &told_records),
            None => ship_lot(&self.rules, &told_records),
        };
        let what = || shown(records);

        let mut lent = Lent::of(&mut self.rng, records);
        // SAFETY: the records are lent with their number.
        let core = unsafe { ffi::grain_ship_lot(lent.pointer(), lent.len()) };
        same(what, core, lot_answer(answer))?;
        lent.untouched(what)?;
        let wrapped = number(grain::ship_lot(lent.lent()));
        same(what, wrapped.map(told), answer)?;
        lent.untouched(what)?;
        self.met.call("ship lot", answer.err());
        let null = lent.is_null();
        self.met.branch_if(null, "lot: records null, refused by 29");
        count_lot(&mut self.met, &self.rules.lots, &told_records, answer);
        Ok(answer)
    }

    /// A lot; then, where orders are compared, the same lot in other records, which must get the same
    /// statement. A lot that is refused for its records must be so in another order.
    pub fn lot_again(&mut self, records: &[Sublot]) -> Result<(), Difference> {
        let answer = self.ship_lot(records)?;
        let ways: &[Again] = match answer {
            _ if !self.orders => &[],
            Ok(_) => &[Again::Moved, Again::Split, Again::SingleTonnes],
            Err(29) => &[],
            Err(_) => &[Again::Moved],
        };
        for &way in ways {
            let Some(other) = way.records(&mut self.rng, records) else {
                continue;
            };
            let then = self.ship_lot(&other)?;
            if then != answer {
                let (given, entered) = (shown(records), shown(&other));
                return Err(Difference(format!(
                    "{given}: {answer:?}\n  {way:?}: {entered}: {then:?}"
                )));
            }
            count_again(&mut self.met, way, answer, other.len());
        }
        Ok(())
    }
}

fn shuffle(rng: &mut Rng, records: &mut [Sublot]) {
    for last in (1..records.len()).rev() {
        records.swap(last, rng.below(last + 1));
    }
}

/// The records in another order.
fn moved(rng: &mut Rng, records: &[Sublot]) -> Option<Vec<Sublot>> {
    let mut moved = records.to_vec();
    shuffle(rng, &mut moved);
    (moved != records).then_some(moved)
}

/// One sublot in two or more records of its figure, which stand in its place or anywhere.
fn split(rng: &mut Rng, records: &[Sublot]) -> Option<Vec<Sublot>> {
    let room = MOST_RECORDS + 1 - records.len();
    let place = rng.below(records.len());
    let of = records[place];
    let most = room.min(of.tonnes as usize);
    if most < 2 {
        return None;
    }
    let few = most.min(4);
    let parts = match rng.below(8) {
        0 => most,
        1 => 2 + rng.below(most - 1),
        _ => 2 + rng.below(few - 1),
    };
    let mut rest = of.tonnes;
    let mut split = Vec::new();
    for left in (1..parts as i32).rev() {
        let tonnes = rng.range(1, (rest - left).into()) as i32;
        split.push(Sublot { tonnes, ..of });
        rest -= tonnes;
    }
    split.push(Sublot { tonnes: rest, ..of });
    let mut entered = [&records[..place], &split, &records[place + 1..]].concat();
    if rng.chance(50) {
        shuffle(rng, &mut entered);
    }
    Some(entered)
}

/// A record of n tonnes as n records of one.
fn single_tonnes(records: &[Sublot]) -> Option<Vec<Sublot>> {
    let tonnes: i64 = records.iter().map(|record| i64::from(record.tonnes)).sum();
    if tonnes > MOST_RECORDS as i64 || tonnes == records.len() as i64 {
        return None;
    }
    let of = |record: &Sublot| {
        let single = Sublot {
            tonnes: 1,
            ..*record
        };
        vec![single; record.tonnes as usize]
    };
    Some(records.iter().flat_map(of).collect())
}

/// A lot of any kind.
pub fn single(trial: &mut Trial) -> Result<(), Difference> {
    let rng = &mut trial.rng;
    let mut records = a_lot(rng);
    match rng.below(20) {
        0..3 => damage(rng, &mut records),
        3 => {
            damage(rng, &mut records);
            damage(rng, &mut records);
        }
        4 | 5 => make_unlike(rng, &mut records),
        6 => {
            make_unlike(rng, &mut records);
            damage(rng, &mut records);
        }
        _ => {}
    }
    trial.lot_again(&records)
}

/// A good lot, but for its size now and then.
fn a_lot(rng: &mut Rng) -> Vec<Sublot> {
    let basis = a_basis(rng);
    if rng.chance(20) {
        return a_half(rng, basis);
    }
    let size = a_size(rng);
    let (figures, tonnes) = (a_span(rng, 0, LARGEST_FIGURE), some_tonnes(rng));
    let record = |_| Sublot {
        figure: of_span(rng, figures),
        basis,
        tonnes: of_span(rng, tonnes),
    };
    (0..size).map(record).collect()
}

fn a_size(rng: &mut Rng) -> usize {
    match rng.below(100) {
        0 => 0,
        1..13 => 1,
        13..28 => 2,
        28..78 => 3 + rng.below(10),
        78..91 => 13 + rng.below(88),
        91..95 => 101 + rng.below(400),
        95..98 => MOST_RECORDS - rng.below(2),
        98 => MOST_RECORDS + 1,
        _ => MOST_RECORDS + 1 + rng.below(200),
    }
}

fn a_basis(rng: &mut Rng) -> i32 {
    match rng.below(4) {
        0 => rng.pick(&[0, 1, LARGEST_BASIS - 1, LARGEST_BASIS]),
        1 => rng.range(0, LARGEST_BASIS.into()) as i32,
        _ => rng.pick(&[1200, 1350, 1400]),
    }
}

/// The whole span, a narrow one in it, one number or an end.
fn a_span(rng: &mut Rng, low: i32, high: i32) -> [i32; 2] {
    let any = rng.range(low.into(), high.into()) as i32;
    match rng.below(8) {
        0 => [any, any],
        1 => [low, low],
        2 => [high, high],
        3 | 4 => [low, high],
        _ => {
            let wide = rng.range(1, 6) as i32;
            [any, high.min(any + wide)]
        }
    }
}

fn some_tonnes(rng: &mut Rng) -> [i32; 2] {
    match rng.below(8) {
        0 => [1, 1],
        1..4 => [1, 20],
        _ => a_span(rng, 1, MOST_TONNES),
    }
}

/// An end of the span or any number in it.
fn of_span(rng: &mut Rng, [low, high]: [i32; 2]) -> i32 {
    match rng.below(6) {
        0 => low,
        1 => high,
        _ => rng.range(low.into(), high.into()) as i32,
    }
}

/// A lot whose mean is an exact half, as each record has another of the same tonnes as far on its other
/// side; or, by one tonne more, as near to a half as can be.
fn a_half(rng: &mut Rng, basis: i32) -> Vec<Sublot> {
    let below = rng.range(0, (LARGEST_FIGURE - 1).into()) as i32;
    let room = below.min(LARGEST_FIGURE - 1 - below);
    let reach = rng.pick(&[0, 1, 5, room]).min(room);
    let tonnes = some_tonnes(rng);
    let pairs = match rng.below(10) {
        0 => 1 + rng.below(249),
        _ => 1 + rng.below(4),
    };
    let mut records = Vec::new();
    for _ in 0..pairs {
        let (off, tonnes) = (rng.range(0, reach.into()) as i32, of_span(rng, tonnes));
        for figure in [below - off, below + 1 + off] {
            records.push(Sublot {
                figure,
                basis,
                tonnes,
            });
        }
    }
    if rng.chance(50) {
        records.push(Sublot {
            figure: below + rng.below(2) as i32,
            basis,
            tonnes: 1,
        });
    }
    shuffle(rng, &mut records);
    records
}

/// A field of a record.
type Field = fn(&mut Sublot) -> &mut i32;

const FIGURE: Field = |record| &mut record.figure;
const BASIS: Field = |record| &mut record.basis;
const TONNES: Field = |record| &mut record.tonnes;

/// Each field with its bounds.
const FIELDS: [(Field, i32, i32); 3] = [
    (FIGURE, 0, LARGEST_FIGURE),
    (BASIS, 0, LARGEST_BASIS),
    (TONNES, 1, MOST_TONNES),
];

/// The first place, the last or any.
fn a_place(rng: &mut Rng, len: usize) -> usize {
    match rng.below(3) {
        0 => 0,
        1 => len - 1,
        _ => rng.below(len),
    }
}

/// One field of a record out of its bounds, for number 30.
fn damage(rng: &mut Rng, records: &mut [Sublot]) {
    if records.is_empty() {
        return;
    }
    let place = a_place(rng, records.len());
    let (field, low, high) = rng.pick(&FIELDS);
    let number = field(&mut records[place]);
    *number = match rng.below(8) {
        0 => low - 1,
        1 => -1,
        2 | 3 => high + 1,
        4 => i32::MIN,
        5 => i32::MAX,
        6 => rng.range(i32::MIN.into(), i64::from(low) - 1) as i32,
        // Its lowest 16 bits are those of a good number.
        _ => number.wrapping_add((rng.range(16, 30_000) << 16) as i32),
    };
}

/// Records of another basis, for number 31: one of them, all from a place on, or any.
fn make_unlike(rng: &mut Rng, records: &mut [Sublot]) {
    if records.is_empty() {
        return;
    }
    let place = a_place(rng, records.len());
    let basis = records[place].basis;
    let other = match rng.below(4) {
        0 if basis > 0 => basis - 1,
        1 if basis < LARGEST_BASIS => basis + 1,
        _ => a_basis(rng),
    };
    match rng.below(4) {
        0 => {
            for record in records {
                record.basis = a_basis(rng);
            }
        }
        1 => {
            for record in &mut records[place..] {
                record.basis = other;
            }
        }
        _ => records[place].basis = other,
    }
}

/// The cases that the rules name, every number at its bounds, and every small lot of a few figures.
pub fn particular(trial: &mut Trial) -> Result<(), Difference> {
    sizes(trial)?;
    bounds(trial)?;
    bases(trial)?;
    sums(trial)?;
    small(trial)
}

fn sublot(figure: i32, tonnes: i32) -> Sublot {
    Sublot {
        figure,
        basis: 1200,
        tonnes,
    }
}

/// Every number of records that matters: good ones, ones refused by 30, by 31 and by both.
fn sizes(trial: &mut Trial) -> Result<(), Difference> {
    let good = sublot(44, 2);
    let empty = sublot(44, 0);
    let moist = Sublot {
        basis: 1350,
        ..good
    };
    for count in [0, 1, 2, 3, 499, 500, 501, 502, 1000] {
        for first in [good, empty, moist] {
            for last in [good, empty, moist] {
                let mut records = vec![good; count];
                if count > 0 {
                    records[count - 1] = last;
                    records[0] = first;
                }
                trial.lot_again(&records)?;
            }
        }
        trial.lot_again(&vec![empty; count])?;
    }
    Ok(())
}

/// Far too many records, in 16 bits a good number of them too.
pub fn longest(trial: &mut Trial) -> Result<(), Difference> {
    for count in [65_536, 65_537, 66_036, 1 << 20] {
        trial.lot_again(&vec![sublot(44, 2); count])?;
    }
    Ok(())
}

/// Each field of a record at its bounds, beside them and at the ends of i32, the record first, between
/// and last, beside records of the same basis and of another.
fn bounds(trial: &mut Trial) -> Result<(), Difference> {
    for (field, low, high) in FIELDS {
        let beside = |bound: i32| [bound - 1, bound, bound + 1];
        let numbers = [&beside(low)[..], &beside(high), &[i32::MIN, -1, i32::MAX]].concat();
        for number in numbers {
            let mut record = sublot(44, 7);
            *field(&mut record) = number;
            bound(trial, record)?;
        }
    }
    Ok(())
}

fn bound(trial: &mut Trial, record: Sublot) -> Result<(), Difference> {
    for count in [1, 2, 3, 500] {
        for place in [0, count / 2, count - 1] {
            for basis in [1200, record.basis] {
                let mut records = vec![
                    Sublot {
                        basis,
                        ..sublot(45, 9)
                    };
                    count
                ];
                records[place] = record;
                trial.lot_again(&records)?;
                // Another one of another basis, before the record or behind it.
                let other = if place == 0 { count - 1 } else { 0 };
                records[other].basis ^= 1;
                trial.lot_again(&records)?;
            }
        }
    }
    Ok(())
}

/// One record of another basis, first, between and last.
fn bases(trial: &mut Trial) -> Result<(), Difference> {
    for other in [0, 1199, 1201, LARGEST_BASIS] {
        for count in [2, 3, 500] {
            for place in [0, count / 2, count - 1] {
                let mut records = vec![sublot(44, 7); count];
                records[place].basis = other;
                trial.lot_again(&records)?;
            }
        }
    }
    let bases = [1200, 1350, 0, 1201, LARGEST_BASIS];
    let record = |&basis: &i32| Sublot {
        basis,
        ..sublot(0, 1)
    };
    for count in 2..=bases.len() {
        let records: Vec<Sublot> = bases[..count].iter().map(record).collect();
        trial.lot_again(&records)?;
    }
    // From the lowest basis to the highest and back, so that neighbours differ by one.
    let there = (1200..1450).chain((1200..1450).rev());
    let records: Vec<Sublot> = there.map(|basis| record(&basis)).collect();
    trial.lot_again(&records)
}

/// The largest sums, and sums beside powers of two.
fn sums(trial: &mut Trial) -> Result<(), Difference> {
    let full = sublot(LARGEST_FIGURE, MOST_TONNES);
    for count in [1, 2, 3, 4, 5, 499, 500, 501] {
        trial.lot_again(&vec![full; count])?;
        trial.lot_again(&vec![sublot(0, MOST_TONNES); count])?;
        trial.lot_again(&[vec![full; count], vec![sublot(0, 1)]].concat())?;
    }
    for power in [16, 31, 32, 33, 35, 38] {
        for beside in -1..=1 {
            trial.lot_again(&lot_of_sum((1 << power) + beside))?;
        }
    }
    // An exact half, and the smallest distance from a half that there is, on both sides.
    let half = [sublot(700, MOST_TONNES), sublot(701, MOST_TONNES)].repeat(249);
    for less in [0, 1] {
        let below = [sublot(700, MOST_TONNES), sublot(701, MOST_TONNES - less)];
        let above = [sublot(700, MOST_TONNES - less), sublot(701, MOST_TONNES)];
        trial.lot_again(&[&half[..], &below].concat())?;
        trial.lot_again(&[&half[..], &above].concat())?;
    }
    Ok(())
}

/// A lot with this sum of figure times tonnes.
fn lot_of_sum(sum: i64) -> Vec<Sublot> {
    let figure = i64::from(LARGEST_FIGURE);
    let (mut tonnes, over) = (sum / figure, sum % figure);
    let mut records = vec![sublot(over as i32, 1)];
    while tonnes > 0 {
        let some = tonnes.min(MOST_TONNES.into());
        records.push(sublot(LARGEST_FIGURE, some as i32));
        tonnes -= some;
    }
    records
}

/// Every lot of one to three records of three figures and three tonnages, and the worked one.
fn small(trial: &mut Trial) -> Result<(), Difference> {
    trial.lot_again(&[sublot(44, 11), sublot(45, 9)])?;
    let record = |place: usize| sublot((place % 3) as i32, 1 + (place / 3 % 3) as i32);
    for first in 0..9 {
        trial.lot_again(&[record(first)])?;
        for second in 0..9 {
            trial.lot_again(&[record(first), record(second)])?;
            for third in 0..9 {
                trial.lot_again(&[record(first), record(second), record(third)])?;
            }
        }
    }
    Ok(())
}

/// A lot that was answered alike in other records.
fn count_again(met: &mut Met, way: Again, answer: Answer, records: usize) {
    let name = match (way, answer) {
        (Again::Moved, Ok(_)) => "lot: in another order, accepted",
        (Again::Moved, Err(30)) => "lot: in another order, refused by 30",
        (Again::Moved, Err(_)) => "lot: in another order, refused by 31",
        (Again::Split, _) => "lot: a sublot in several records",
        (Again::SingleTonnes, _) => "lot: tonne by tonne",
    };
    met.branch(name);
    let full = matches!(way, Again::Split) && records == MOST_RECORDS;
    met.branch_if(full, "lot: a sublot in several records, 500 of them");
}

/// The branches of a lot.
fn count_lot(met: &mut Met, rules: &LotRules, records: &[grain_model::Sublot], answer: Answer) {
    match answer {
        Ok(lot) => {
            count_records(met, records, lot);
            count_places(met, records, lot);
            count_rounding(met, lot);
            count_mean(met, records, lot);
        }
        Err(29) => count_size(met, rules, records),
        Err(30) => count_bad(met, rules, records),
        Err(_) => count_unlike(met, records),
    }
}

/// The ways to 29.
fn count_size(met: &mut Met, rules: &LotRules, records: &[grain_model::Sublot]) {
    let bad = records.iter().any(|record| bad_sublot(rules, record));
    let unlike = unlike_basis(records);
    let count = records.len();
    let many = count > 1 && !bad && !unlike;
    met.branch_if(count == 0, "lot: 29, no record");
    met.branch_if(count == 501 && many, "lot: 29, 501 records");
    met.branch_if(count > 1 << 16 && many, "lot: 29, more than 65536 records");
    met.branch_if(bad && !unlike, "lot: 29 before 30");
    met.branch_if(!bad && unlike, "lot: 29 before 31");
    met.branch_if(bad && unlike, "lot: 29 before 30 and 31");
}

/// The ways to 30: which record, and whether the others are of unlike basis.
fn count_bad(met: &mut Met, rules: &LotRules, records: &[grain_model::Sublot]) {
    let last = records.len() - 1;
    let (mut places, mut good) = (Vec::new(), Vec::new());
    for (place, record) in records.iter().enumerate() {
        match bad_sublot(rules, record) {
            true => places.push(place),
            false => good.push(*record),
        }
    }
    match places[..] {
        [_] if last == 0 => met.branch("lot: 30, the only record"),
        [0] => met.branch("lot: 30, the first record"),
        [place] if place == last => met.branch("lot: 30, the last record"),
        [_] => met.branch("lot: 30, a record between"),
        _ => met.branch("lot: 30, several records"),
    }
    if let [place] = places[..] {
        count_fault(met, rules, &records[place]);
        let unlike = unlike_basis(&good);
        met.branch_if(unlike && place == 0, "lot: 30 before 31, the first record");
        met.branch_if(
            unlike && place == last,
            "lot: 30 before 31, the last record",
        );
        met.branch_if(last == 499, "lot: 30, one record of 500");
    }
    let alike = last > 0 && !unlike_basis(records);
    let all = alike && rules.basis.outside(records[0].basis);
    met.branch_if(all, "lot: 30, all of one basis that is out of bounds");
}

/// The only bad record's fault.
fn count_fault(met: &mut Met, rules: &LotRules, record: &grain_model::Sublot) {
    const LEAST: i64 = i32::MIN as i64;
    const LARGEST: i64 = i32::MAX as i64;
    let figure = rules.figure.outside(record.figure);
    let basis = rules.basis.outside(record.basis);
    let tonnes = rules.tonnes.outside(record.tonnes);
    let name = match (figure, basis, tonnes) {
        (true, false, false) => match record.figure {
            -1 => "lot: 30, figure -1",
            1001 => "lot: 30, figure 1001",
            LEAST => "lot: 30, the least i32 as figure",
            LARGEST => "lot: 30, the largest i32 as figure",
            _ => "lot: 30, another figure",
        },
        (false, true, false) => match record.basis {
            -1 => "lot: 30, basis -1",
            5001 => "lot: 30, basis 5001",
            LEAST => "lot: 30, the least i32 as basis",
            LARGEST => "lot: 30, the largest i32 as basis",
            _ => "lot: 30, another basis",
        },
        (false, false, true) => match record.tonnes {
            -1 => "lot: 30, tonnes -1",
            0 => "lot: 30, tonnes 0",
            1_000_001 => "lot: 30, tonnes 1000001",
            LEAST => "lot: 30, the least i32 as tonnes",
            LARGEST => "lot: 30, the largest i32 as tonnes",
            _ => "lot: 30, other tonnes",
        },
        _ => "lot: 30, several fields",
    };
    met.branch(name);
}

/// The ways to 31.
fn count_unlike(met: &mut Met, records: &[grain_model::Sublot]) {
    let count = records.len();
    met.branch_if(count == 2, "lot: 31, two records");
    met.branch_if(count == 500, "lot: 31, 500 records");
    if count > 2 {
        let but_first = !unlike_basis(&records[1..]);
        met.branch_if(but_first, "lot: 31, for the first record only");
        let but_last = !unlike_basis(&records[..count - 1]);
        met.branch_if(but_last, "lot: 31, for the last record only");
        let ends_alike = records[0].basis == records[count - 1].basis;
        met.branch_if(ends_alike, "lot: 31, first and last alike");
        let each = records.windows(2).all(|two| two[0].basis != two[1].basis);
        met.branch_if(each, "lot: 31, no record like the one before");
    }
    let bases = || records.iter().map(|record| record.basis);
    let (least, largest) = (bases().min().unwrap_or(0), bases().max().unwrap_or(0));
    met.branch_if(largest - least == 1, "lot: 31, bases a hundredth apart");
    met.branch_if(largest - least == 5000, "lot: 31, bases 0 and 5000");
    let figure = records[0].figure;
    let one_figure = records.iter().all(|record| record.figure == figure);
    met.branch_if(one_figure, "lot: 31, all of one figure");
}

/// How many records an accepted lot has, what stands in them, and what they come to.
fn count_records(met: &mut Met, records: &[grain_model::Sublot], lot: LotStatement) {
    let tonnes = |tonnes| records.iter().any(|record| record.tonnes == tonnes);
    let name = match records.len() {
        1 => "lot: one record",
        2 => "lot: two records",
        499 => "lot: 499 records",
        500 => "lot: 500 records",
        _ => "lot: another number of records",
    };
    met.branch(name);
    met.branch_if(tonnes(1), "lot: a record of 1 tonne");
    met.branch_if(tonnes(1_000_000), "lot: a record of 1000000 tonnes");
    met.branch_if(lot.basis == 0, "lot: basis 0");
    met.branch_if(lot.basis == 5000, "lot: basis 5000");
    met.branch_if(lot.lowest == 0 && lot.highest == 0, "lot: figure 0 only");
    met.branch_if(lot.lowest == 1000, "lot: figure 1000 only");
    let widest = lot.lowest == 0 && lot.highest == 1000;
    met.branch_if(widest, "lot: figures 0 and 1000");
    met.branch_if(lot.tonnes == 1, "lot: 1 tonne");
    met.branch_if(lot.tonnes == 500_000_000, "lot: 500000000 tonnes");
    let (sum, short) = (lot.weighted_sum, 1 << 32);
    met.branch_if(sum == 0, "lot: sum 0");
    met.branch_if(sum == short - 1, "lot: sum 4294967295");
    met.branch_if(sum == short, "lot: sum 4294967296");
    met.branch_if(sum > short, "lot: a larger sum");
    met.branch_if(sum == 500_000_000_000, "lot: sum 500000000000");
}

/// Where the only record with the lowest figure stands, and the only one with the highest.
fn count_places(met: &mut Met, records: &[grain_model::Sublot], lot: LotStatement) {
    let last = records.len() - 1;
    let only_place = |figure: i64| {
        let mut places = (0..=last).filter(|&place| records[place].figure == figure);
        places.next().filter(|_| places.next().is_none())
    };
    if last < 2 {
        return;
    }
    if let Some(place) = only_place(lot.lowest) {
        met.branch(match place {
            0 => "lot: the lowest first",
            _ if place == last => "lot: the lowest last",
            _ => "lot: the lowest between",
        });
    }
    if let Some(place) = only_place(lot.highest) {
        met.branch(match place {
            0 => "lot: the highest first",
            _ if place == last => "lot: the highest last",
            _ => "lot: the highest between",
        });
    }
    let several = only_place(lot.lowest).is_none() && lot.lowest < lot.highest;
    met.branch_if(several, "lot: several records of the lowest figure");
}

/// How the mean's tenth is rounded.
fn count_rounding(met: &mut Met, lot: LotStatement) {
    let whole = lot.weighted_sum / lot.tonnes;
    let over = lot.weighted_sum % lot.tonnes;
    let beside_half = 2 * over - lot.tonnes;
    met.branch(match beside_half {
        _ if over == 0 => "lot: mean exact",
        0 if whole % 2 == 0 => "lot: mean a half, up to an odd tenth",
        0 => "lot: mean a half, up to an even tenth",
        1.. => "lot: mean rounded up",
        _ => "lot: mean rounded down",
    });
    let just_below = beside_half == -1 && over > 0;
    met.branch_if(just_below, "lot: mean just below a half");
    met.branch_if(beside_half == 1, "lot: mean just above a half");
}

/// Where the mean lies, and what it would be by another way.
fn count_mean(met: &mut Met, records: &[grain_model::Sublot], lot: LotStatement) {
    let (sum, tonnes, mean) = (lot.weighted_sum, lot.tonnes, lot.mean);
    if lot.lowest < lot.highest {
        met.branch_if(mean == lot.lowest, "lot: mean the lowest figure");
        met.branch_if(mean == lot.highest, "lot: mean the highest figure");
    }
    let hundredths = (20 * sum + tonnes) / (2 * tonnes);
    let twice = (hundredths + 5) / 10;
    met.branch_if(twice != mean, "lot: mean another if rounded twice");
    let count = records.len() as i64;
    let figures: i64 = records.iter().map(|record| record.figure).sum();
    let plain = (2 * figures + count) / (2 * count);
    met.branch_if(plain != mean, "lot: mean another without the tonnes");
    let divides = |by: &i64| sum % by == 0 && tonnes % by == 0;
    let reducible = sum > 0 && [2, 3, 5, 7].iter().any(divides);
    met.branch_if(reducible, "lot: sum and tonnes have a divisor");
}
