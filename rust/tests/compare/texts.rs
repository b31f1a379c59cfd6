//! Chart texts: the comparison, and random texts, good and damaged.

use grain::ffi;
use grain_model::text::{self, INPUT_NAMES};
use grain_model::{Chart, ChartSet, Rules, TextRefusal};

use crate::charts;
use crate::lent::{Difference, Lent, same};
use crate::met::Met;
use crate::plots;
use crate::rng::Rng;
use crate::stations::Trial;

impl Trial {
    /// Charts a text into a buffer of `bytes`.
    pub fn text(&mut self, text: &[u8], bytes: usize) -> Result<(), Difference> {
        let mut model_out = vec![0; bytes];
        let answer = text::chart_text(&self.rules, text, &mut model_out);
        let shown = String::from_utf8_lossy(&text[..text.len().min(2000)]);
        let what = || {
            format!(
                "text of {} bytes, {bytes} for its output: {shown:?}",
                text.len()
            )
        };

        let mut lent = Lent::of(&mut self.rng, text);
        let mut out = Lent::exactly(&mut self.rng, bytes);
        // SAFETY: the arrays are lent with their lengths.
        let core =
            unsafe { ffi::grain_chart_text(lent.pointer(), lent.len(), out.pointer(), out.len()) };
        let expected = match answer {
            Ok(length) => ffi::Written {
                accepted: 1,
                number: 0,
                line: 0,
                length: length as u32,
            },
            Err(refusal) => ffi::Written {
                accepted: 0,
                number: refusal.number.into(),
                line: refusal.line as u32,
                length: 0,
            },
        };
        let written = answer.unwrap_or(0);
        same(what, core, expected)?;
        lent.untouched(what)?;
        out.holds(what, &model_out[..written])?;
        let null = lent.is_null() && core.number == 16;
        self.met.branch_if(null, "text: null, refused by 16");
        let null = out.is_null() && core.number == 22;
        self.met.branch_if(null, "text: output null, refused by 22");

        let refusal = |refused: grain::TextRefusal| TextRefusal {
            number: refused.refusal.number(),
            line: refused.line.into(),
        };
        let mut out = Lent::exactly(&mut self.rng, bytes);
        let wrapped = grain::chart_text_into(text, out.lent()).map_err(refusal);
        same(what, wrapped, answer)?;
        out.holds(what, &model_out[..written])?;

        // The wrapper with a buffer of its own, against what the chart program prints.
        let printed = grain::chart_text(text).unwrap_or_else(|refused| {
            format!("refused {} {}\n", refused.refusal.number(), refused.line).into_bytes()
        });
        same(what, printed, text::program(&self.rules, text))?;
        let refused = answer.err().map(|refusal| refusal.number);
        self.met.call("chart text", refused);
        match refused {
            None => count_accepted(&mut self.met, text),
            Some(number) => {
                let unended = number == 17 && text.last() != Some(&b'\n');
                self.met
                    .branch_if(unended, "text: last line without line feed");
            }
        }
        Ok(())
    }
}

/// The branches of an accepted text.
fn count_accepted(met: &mut Met, text: &[u8]) {
    met.branch("text: accepted");
    let alone = text.len() == INPUT_NAMES.len();
    met.branch_if(alone, "text: names line alone");
    met.branch_if(text.len() == 65_536, "text: exactly 65536 bytes");
    for numbers in sets(text) {
        count_set(met, &numbers);
    }
}

/// What a set of an accepted text plots.
fn count_set(met: &mut Met, numbers: &[i32]) {
    let (set, exact) = (ChartSet::of(numbers), plots::exact(numbers));
    let half = plots::sums(numbers).map(|sum| plots::is_half(sum, set.count));
    met.branch_if(half[0], "text: an original mean a half");
    met.branch_if(half[1], "text: a monitor mean a half");
    met.branch_if(set.plot < 0, "text: a plot below zero");
    let zero = set.plot == 0 && exact != 0;
    met.branch_if(zero, "text: a plot of 0 whose sum isn't 0");
    met.branch_if(
        set.plot != plots::rounded_once(exact),
        "text: a plot another than the mean of the differences rounded once",
    );
}

/// A random text, as it is or damaged, and buffers beside the length it needs.
pub fn single(trial: &mut Trial) -> Result<(), Difference> {
    let rng = &mut trial.rng;
    let weeks = rng.pick(&[0, 1, 1, 2, 3, 6, 12]);
    let mut text = good(rng, weeks);
    if rng.chance(70) {
        damage(rng, &mut text);
    }
    let lines = text.iter().filter(|&&byte| byte == b'\n').count().max(1);
    let needed = 40 * (starts(&text) + 1);
    let bytes = match rng.below(10) {
        0 => rng.pick(&[0, needed - 1]),
        1 => rng.below(needed),
        2..6 => needed,
        _ => 40 * lines + rng.below(9),
    };
    trial.text(&text, bytes)?;
    trial
        .met
        .branch_if(bytes == needed, "text: buffer of 40 bytes a line");
    Ok(())
}

/// Lines with sample 1.
fn starts(text: &[u8]) -> usize {
    let start = |line: &&[u8]| line.split(|&byte| byte == b' ').nth(1) == Some(b"1");
    text.split(|&byte| byte == b'\n').filter(start).count()
}

/// A good text of so many weeks.
fn good(rng: &mut Rng, weeks: usize) -> Vec<u8> {
    let rules = Rules::in_force();
    let mut chart = Chart::fresh(0);
    let mut text = INPUT_NAMES.to_vec();
    let mut week = rng.pick(&[0, 0, 25, 9900]);
    for _ in 0..weeks {
        week += rng.pick(&[1, 1, 1, 2, 5]);
        let numbers = match rng.chance(50) {
            true => charts::a_set(rng, &rules.charts[0], &chart),
            false => any_set(rng),
        };
        for (sample, pair) in (1..).zip(numbers.chunks_exact(2)) {
            let line = format!("{week} {sample} {} {}\n", pair[0], pair[1]);
            text.extend(line.into_bytes());
        }
        chart.hold(week, ChartSet::of(&numbers));
    }
    text
}

/// The numbers of a set with differences of about one size.
fn any_set(rng: &mut Rng) -> Vec<i32> {
    let pairs = if rng.chance(50) { 5 } else { rng.range(1, 5) };
    let bias = rng.range(-25, 25);
    let mut numbers = Vec::new();
    for _ in 0..pairs {
        let monitor = match rng.chance(90) {
            true => rng.range(900, 1900),
            false => rng.pick(&[0, 10_000, 7, 10, 100]),
        };
        let original = (monitor + bias + rng.range(-20, 20)).clamp(0, 10_000);
        numbers.extend([original as i32, monitor as i32]);
    }
    numbers
}

/// The sets of an accepted text, by the numbers of each.
fn sets(text: &[u8]) -> Vec<Vec<i32>> {
    let mut sets: Vec<Vec<i32>> = Vec::new();
    let lines = text[INPUT_NAMES.len()..].split(|&byte| byte == b'\n');
    for line in lines.filter(|line| !line.is_empty()) {
        let number = |field: &[u8]| {
            let digits = field.iter();
            digits.fold(0, |number, digit| 10 * number + i32::from(digit - b'0'))
        };
        let fields: Vec<i32> = line.split(|&byte| byte == b' ').map(number).collect();
        if fields[1] == 1 {
            sets.push(Vec::new());
        }
        if let Some(set) = sets.last_mut() {
            set.extend(&fields[2..]);
        }
    }
    sets
}

/// The places where the value lines start.
fn line_starts(text: &[u8]) -> Vec<usize> {
    let feeds = text.iter().enumerate().filter(|(_, byte)| **byte == b'\n');
    let starts = feeds.map(|(place, _)| place + 1);
    starts.filter(|&start| start < text.len()).collect()
}

/// One thing wrong with a text.
fn damage(rng: &mut Rng, text: &mut Vec<u8>) {
    match rng.below(12) {
        // The names line or any other byte.
        0 => {
            let place = rng.below(INPUT_NAMES.len());
            text[place] = rng.bits() as u8;
        }
        1 => text.truncate(rng.below(INPUT_NAMES.len())),
        2 => {
            let place = rng.below(text.len());
            text[place] = rng.pick(b"0159 \n\t\r-+x\0\xff");
        }
        3 => {
            let place = rng.below(text.len() + 1);
            text.insert(place, rng.pick(b"0159 \n\t\r-+x\0\xff"));
        }
        4 => {
            let place = rng.below(text.len());
            text.remove(place);
        }
        5 => {
            text.pop();
        }
        6 => text.extend_from_slice(rng.pick(&[
            b"\n".as_slice(),
            b"1",
            b"9999 1 0 0\n",
            b"10000 1 0 0\n",
            b"99999 1 0 0\n",
            b"100000 1 0 0\n",
        ])),
        _ => field(rng, text),
    }
}

/// Another number in one field of a value line.
fn field(rng: &mut Rng, text: &mut Vec<u8>) {
    let lines = line_starts(text);
    if lines.is_empty() {
        return;
    }
    let start = rng.pick(&lines);
    let end = start
        + text[start..]
            .iter()
            .position(|&byte| byte == b'\n')
            .unwrap();
    let line = String::from_utf8(text[start..end].to_vec()).unwrap();
    let mut fields: Vec<String> = line.split(' ').map(str::to_string).collect();
    let place = rng.below(fields.len());
    let number: i64 = fields[place].parse().unwrap_or(0);
    fields[place] = match rng.below(8) {
        0 => (number + 1).to_string(),
        1 => (number - 1).max(0).to_string(),
        2 => rng
            .pick(&["0", "1", "2", "5", "6", "00", "01", ""])
            .to_string(),
        3 => rng
            .pick(&["9999", "10000", "10001", "99999", "100000", "-1"])
            .to_string(),
        4 => format!("0{number}"),
        5 => rng
            .pick(&["18446744073709551617", "4294967297", "65537"])
            .to_string(),
        6 => format!("{number} "),
        _ => rng.pick(&["10000", "10001"]).to_string(),
    };
    text.splice(start..end, fields.join(" ").into_bytes());
}

/// A text of nearly 65536 bytes or just more, as it is or with one line damaged.
pub fn long(trial: &mut Trial) -> Result<(), Difference> {
    let rng = &mut trial.rng;
    let mut text = full();
    match rng.below(4) {
        0 => text.extend_from_slice(&b"9999 1 0 0\n"[..rng.range(1, 11) as usize]),
        1 => field(rng, &mut text),
        2 => damage(rng, &mut text),
        _ => text.truncate(rng.below(65_536)),
    }
    let bytes = 40 * (starts(&text) + 1);
    trial.text(&text, bytes)
}

/// A good text of exactly 65536 bytes with buffers of several lengths, then one byte more; the
/// shortest texts.
pub fn longest(trial: &mut Trial) -> Result<(), Difference> {
    let mut text = full();
    let bytes = 40 * (starts(&text) + 1);
    trial.text(&text, bytes)?;
    trial.text(&text, bytes + 1)?;
    trial.text(&text, bytes - 1)?;
    trial.text(&text, 0)?;
    text.push(b'\n');
    trial.text(&text, bytes)?;
    text[0] = b'W';
    trial.text(&text, bytes)?;
    trial.text(&[], 40)?;
    trial.text(INPUT_NAMES, 40)?;
    trial.text(INPUT_NAMES, 39)
}

/// Lines beside the edges of the numbers 17 to 19 and 21, and the line after a good first one.
const PARTICULAR: [&str; 24] = [
    "0 1 0 0\n",
    "0 2 0 0\n",
    "1 0 0 0\n",
    "1 1 0 0\n",
    "1 2 0 0\n",
    "7 1 0 0\n",
    "7 2 0 0\n",
    "7 2 0 0",
    "7 3 0 0\n",
    "8 1 0 0\n",
    "8 2 0 0\n",
    "9999 1 0 10000\n",
    "10000 1 0 0\n",
    "10000 2 0 0\n",
    "7 2 10001 0\n",
    "7 2 0 10001\n",
    "7 2 99999 0\n",
    "7 2 100000 0\n",
    "7 2 00 0\n",
    "07 2 0 0\n",
    "7 2 0 0 \n",
    "7  2 0 0\n",
    "7 2 0\n",
    "\n",
];

/// Each of the particular lines alone, after one sample of week 7, after five, and before another.
pub fn particular(trial: &mut Trial) -> Result<(), Difference> {
    let names = String::from_utf8_lossy(INPUT_NAMES);
    let five: String = (1..6).map(|sample| format!("7 {sample} 0 0\n")).collect();
    for line in PARTICULAR {
        for before in ["", "7 1 0 0\n", &five] {
            for after in ["", "7 6 0 0\n", "x"] {
                let text = format!("{names}{before}{line}{after}");
                trial.text(text.as_bytes(), 200)?;
            }
        }
    }
    Ok(())
}

/// Lines of 17 bytes with three or four digits a result, to 65536 bytes in all.
pub fn full() -> Vec<u8> {
    let mut text = INPUT_NAMES.to_vec();
    let lines = (65_536 - text.len()).div_ceil(17);
    let mut shorter = lines * 17 - (65_536 - text.len());
    for line in 0..lines {
        let (week, sample) = (1000 + line / 5, line % 5 + 1);
        let original = 1000 + (line * 37) % 900;
        let monitor = if shorter > 0 {
            999
        } else {
            1000 + (line * 53) % 900
        };
        shorter = shorter.saturating_sub(1);
        text.extend(format!("{week} {sample} {original} {monitor}\n").into_bytes());
    }
    assert_eq!(text.len(), 65_536);
    text
}
