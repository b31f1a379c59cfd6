//! The model on ship lots: worked statements, both sides of every bound, the order of the refusals, and
//! that order and records make no difference.

use grain_model::{LotStatement, Rules, Sublot, ship_lot};

const LEAST: i64 = i32::MIN as i64;
const LARGEST: i64 = i32::MAX as i64;

fn sublot(figure: i64, tonnes: i64) -> Sublot {
    Sublot {
        figure,
        basis: 1200,
        tonnes,
    }
}

fn stated(records: &[Sublot]) -> Result<LotStatement, u8> {
    ship_lot(&Rules::in_force(), records)
}

/// Records of figure and tonnes, all of basis 1200.
fn lot(records: &[(i64, i64)]) -> Vec<Sublot> {
    let records = records.iter();
    records
        .map(|&(figure, tonnes)| sublot(figure, tonnes))
        .collect()
}

/// Single tonnes, written out: sorted, their first and last, count and sum, and the mean's tenth by
/// whole division.
fn by_single_tonnes(records: &[Sublot]) -> LotStatement {
    let mut figures = Vec::new();
    for record in records {
        figures.extend(std::iter::repeat_n(record.figure, record.tonnes as usize));
    }
    figures.sort_unstable();
    let (tonnes, sum) = (figures.len() as i64, figures.iter().sum::<i64>());
    LotStatement {
        basis: records[0].basis,
        lowest: figures[0],
        highest: figures[figures.len() - 1],
        mean: (2 * sum + tonnes) / (2 * tonnes),
        tonnes,
        weighted_sum: sum,
    }
}

/// Figures and tonnes; lowest, highest, mean, sum and tonnes.
type Case = (&'static [(i64, i64)], [i64; 5]);

#[test]
fn worked_statements() {
    let cases: [Case; 12] = [
        (&[(44, 11), (45, 9)], [44, 45, 44, 889, 20]),  // 44.45
        (&[(44, 1), (45, 1)], [44, 45, 45, 89, 2]),     // an exact half, to an odd tenth
        (&[(43, 1), (44, 1)], [43, 44, 44, 87, 2]),     // and to an even one
        (&[(44, 10), (45, 9)], [44, 45, 44, 845, 19]),  // 44.47
        (&[(44, 10), (45, 10)], [44, 45, 45, 890, 20]), // neither is reduced
        (&[(44, 9), (45, 10)], [44, 45, 45, 846, 19]),  // 44.53
        (&[(0, 1)], [0, 0, 0, 0, 1]),
        (
            &[(1000, 1_000_000)],
            [1000, 1000, 1000, 1_000_000_000, 1_000_000],
        ),
        (&[(0, 1), (1, 1)], [0, 1, 1, 1, 2]),
        (&[(999, 1), (1000, 1)], [999, 1000, 1000, 1999, 2]),
        (&[(0, 999_999), (1000, 1)], [0, 1000, 0, 1000, 1_000_000]),
        (&[(100, 1), (110, 3), (90, 2)], [90, 110, 102, 610, 6]), // 101.67
    ];
    for (records, [lowest, highest, mean, weighted_sum, tonnes]) in cases {
        let statement = LotStatement {
            basis: 1200,
            lowest,
            highest,
            mean,
            tonnes,
            weighted_sum,
        };
        assert_eq!(stated(&lot(records)), Ok(statement), "{records:?}");
    }
}

/// An exact half, and the smallest distance from a half that a lot can have, on both sides.
#[test]
fn beside_a_half() {
    let half = [(700, 1_000_000), (701, 1_000_000)].repeat(249);
    let mean = |more: &[(i64, i64)]| stated(&lot(&[&half, more].concat())).map(|lot| lot.mean);
    assert_eq!(mean(&[]), Ok(701));
    assert_eq!(mean(&[(700, 1_000_000), (701, 999_999)]), Ok(700));
    assert_eq!(mean(&[(700, 999_999), (701, 1_000_000)]), Ok(701));
}

/// Every lot of at most three records of a few figures and tonnes.
#[test]
fn small_lots_by_single_tonnes() {
    let mut records = Vec::new();
    for figure in [0, 1, 2, 7] {
        records.extend((1..=4).map(|tonnes| sublot(figure, tonnes)));
    }
    let same = |lot: &[Sublot]| assert_eq!(stated(lot), Ok(by_single_tonnes(lot)), "{lot:?}");
    for &first in &records {
        same(&[first]);
        for &second in &records {
            same(&[first, second]);
            for &third in &records {
                same(&[first, second, third]);
            }
        }
    }
}

#[test]
fn the_number_of_records() {
    let tonnes = |count| stated(&vec![sublot(44, 2); count]).map(|lot| lot.tonnes);
    assert_eq!(tonnes(0), Err(29));
    assert_eq!(tonnes(1), Ok(2));
    assert_eq!(tonnes(2), Ok(4));
    assert_eq!(tonnes(499), Ok(998));
    assert_eq!(tonnes(500), Ok(1000));
    assert_eq!(tonnes(501), Err(29));
    assert_eq!(tonnes(100_000), Err(29));
}

#[test]
fn the_largest_lot() {
    let statement = LotStatement {
        basis: 5000,
        lowest: 1000,
        highest: 1000,
        mean: 1000,
        tonnes: 500_000_000,
        weighted_sum: 500_000_000_000,
    };
    let record = Sublot {
        figure: 1000,
        basis: 5000,
        tonnes: 1_000_000,
    };
    assert_eq!(stated(&[record; 500]), Ok(statement));
}

/// The answer to a lot of so many records with this one at the start, in the middle or at the end, the
/// others being of its basis.
fn number_of(record: Sublot, count: usize, place: usize) -> u8 {
    let other = Sublot {
        basis: record.basis,
        ..sublot(500, 7)
    };
    let mut records = vec![other; count];
    records[place] = record;
    stated(&records).err().unwrap_or(0)
}

#[test]
fn both_sides_of_every_bound() {
    let figure = |figure| sublot(figure, 5);
    let tonnes = |tonnes| sublot(44, tonnes);
    let basis = |basis| Sublot {
        basis,
        ..sublot(44, 5)
    };
    let mut cases = Vec::new();
    cases.extend([0, 1, 999, 1000].map(|number| (figure(number), 0)));
    cases.extend([LEAST, -1, 1001, LARGEST].map(|number| (figure(number), 30)));
    cases.extend([1, 2, 999_999, 1_000_000].map(|number| (tonnes(number), 0)));
    cases.extend([LEAST, -1, 0, 1_000_001, LARGEST].map(|number| (tonnes(number), 30)));
    cases.extend([0, 1, 4999, 5000].map(|number| (basis(number), 0)));
    cases.extend([LEAST, -1, 5001, LARGEST].map(|number| (basis(number), 30)));
    for (record, expected) in cases {
        for (count, place) in [
            (1, 0),
            (2, 0),
            (2, 1),
            (3, 1),
            (500, 0),
            (500, 250),
            (500, 499),
        ] {
            let number = number_of(record, count, place);
            assert_eq!(number, expected, "{record:?} at {place} of {count}");
        }
    }
}

#[test]
fn records_of_unlike_basis() {
    let at = |basis| Sublot {
        basis,
        ..sublot(44, 5)
    };
    for (bases, expected) in [
        (&[1200, 1200][..], 0),
        (&[1200, 1201], 31),
        (&[1201, 1200], 31),
        (&[0, 5000], 31),
        (&[1200, 1200, 1350], 31),
        (&[1350, 1200, 1200], 31),
        (&[1200, 1350, 1200], 31),
        (&[1200, 1350, 1400], 31),
    ] {
        let records: Vec<Sublot> = bases.iter().map(|&basis| at(basis)).collect();
        assert_eq!(stated(&records).err().unwrap_or(0), expected, "{bases:?}");
    }
    // A basis isn't converted: figures of 0 stay unlike too.
    let dry = Sublot {
        basis: 0,
        ..sublot(0, 5)
    };
    assert_eq!(stated(&[dry, sublot(0, 5)]), Err(31));
}

/// Each number is tried over the whole list before the next.
#[test]
fn the_order_of_29_30_and_31() {
    let good = sublot(44, 11);
    let empty = sublot(44, 0);
    let moist = Sublot {
        basis: 1350,
        ..good
    };
    let bad_basis = Sublot {
        basis: 5001,
        ..good
    };
    assert_eq!(stated(&[empty; 501]), Err(29));
    assert_eq!(stated(&[good, moist, good].repeat(167)), Err(29));
    assert_eq!(stated(&[empty, moist, good].repeat(167)), Err(29));
    for records in [
        [good, moist, empty],
        [empty, good, moist],
        [good, empty, moist],
        [good, good, bad_basis],
        [bad_basis, good, good],
    ] {
        assert_eq!(stated(&records), Err(30), "{records:?}");
    }
    assert_eq!(stated(&[good, moist, good]), Err(31));
}

/// A record of n tonnes counts as n records of one: in any order, in any records.
#[test]
fn order_and_records_make_no_difference() {
    let whole = [(44, 11), (45, 9), (38, 1_000_000), (60, 3)];
    let statement = stated(&lot(&whole)).unwrap();
    assert_eq!((statement.lowest, statement.highest), (38, 60));
    for turn in 0..4 {
        let mut turned = whole;
        turned.rotate_left(turn);
        assert_eq!(stated(&lot(&turned)), Ok(statement));
        turned.reverse();
        assert_eq!(stated(&lot(&turned)), Ok(statement));
    }
    let parts = [
        (44, 5),
        (38, 999_999),
        (60, 1),
        (45, 9),
        (44, 6),
        (60, 2),
        (38, 1),
    ];
    assert_eq!(stated(&lot(&parts)), Ok(statement));
    // 11 tonnes and 9 as single tonnes.
    let singles = [vec![(44, 1); 11], vec![(45, 1); 9]].concat();
    assert_eq!(stated(&lot(&singles)), stated(&lot(&whole[..2])));
}
