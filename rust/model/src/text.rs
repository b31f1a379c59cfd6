//! Section "Control charts": the chart program's text.

use crate::Refusal;
use crate::chart::Chart;
use crate::rules::Rules;

/// Names line `week sample original monitor`, with its line feed.
pub const INPUT_NAMES: &[u8] = b"week sample original monitor\n";
/// The names line of the output.
pub const OUTPUT_NAMES: &[u8] = b"week n plot range al tl run ral rtl\n";

/// The number "and the text line (names line 1; 0 for number 15)".
#[derive(Clone, Copy, Debug, PartialEq, Eq)]
pub struct TextRefusal {
    pub number: Refusal,
    pub line: i64,
}

/// The four numbers of a value line.
#[derive(Clone, Copy, Debug, PartialEq, Eq)]
struct Entry {
    week: i64,
    sample: i64,
    original: i64,
    monitor: i64,
}

/// The sets of a text: the week of each and where its numbers end.
#[derive(Default)]
struct Sets {
    weeks: Vec<(u32, usize)>,
    numbers: Vec<i32>,
}

/// A decimal at the start and what follows it: unsigned decimals .., no leading zeros, of at most
/// five digits (17).
fn decimal(text: &[u8]) -> Option<(i64, &[u8])> {
    let digits = text.iter().take_while(|byte| byte.is_ascii_digit()).count();
    let (number, rest) = text.split_at(digits);
    let leading_zero = digits > 1 && number[0] == b'0';
    if digits == 0 || digits > 5 || leading_zero {
        return None;
    }
    let value = number
        .iter()
        .fold(0, |value, digit| 10 * value + i64::from(digit - b'0'));
    Some((value, rest))
}

/// Four unsigned decimals a line, .. single spaces, each line ended by a line feed: the line at
/// the start and the text after it. None is number 17.
fn value_line(text: &[u8]) -> Option<(Entry, &[u8])> {
    let (week, text) = decimal(text)?;
    let (sample, text) = decimal(text.strip_prefix(b" ")?)?;
    let (original, text) = decimal(text.strip_prefix(b" ")?)?;
    let (monitor, text) = decimal(text.strip_prefix(b" ")?)?;
    let entry = Entry {
        week,
        sample,
        original,
        monitor,
    };
    Some((entry, text.strip_prefix(b"\n")?))
}

/// Numbers 18, 19 and 21 of a value line after the line before it (none: the first).
fn refused(rules: &Rules, before: Option<Entry>, entry: Entry) -> Option<Refusal> {
    // 18: A line either has the week before it and the next sample number up to 5, or another week
    // and sample 1.
    let same_week = before.filter(|before| before.week == entry.week);
    let in_turn = match same_week {
        Some(before) => entry.sample == before.sample + 1 && entry.sample <= rules.pairs,
        None => entry.sample == 1,
    };
    if !in_turn {
        return Some(18);
    }
    // 19: The week isn't above the chart's last week or is above 9999 (in text: a starting week).
    let last_week = before.map_or(0, |before| before.week);
    if same_week.is_none() && (entry.week <= last_week || entry.week > rules.last_week) {
        return Some(19);
    }
    let result = 0..=rules.chart_result;
    (!result.contains(&entry.original) || !result.contains(&entry.monitor)).then_some(21)
}

/// Text lines are judged in turn.
fn judge(rules: &Rules, text: &[u8]) -> Result<Sets, TextRefusal> {
    let refusal = |number, line| Err(TextRefusal { number, line });
    if text.len() as i64 > rules.text_bytes {
        return refusal(15, 0);
    }
    let Some(mut rest) = text.strip_prefix(INPUT_NAMES) else {
        return refusal(16, 1);
    };
    let mut sets = Sets::default();
    let mut before = None;
    let mut line = 1;
    while !rest.is_empty() {
        line += 1;
        let Some((entry, after)) = value_line(rest) else {
            return refusal(17, line);
        };
        if let Some(number) = refused(rules, before, entry) {
            return refusal(number, line);
        }
        let numbers = [entry.original as i32, entry.monitor as i32];
        sets.numbers.extend_from_slice(&numbers);
        if entry.sample == 1 {
            sets.weeks.push((entry.week as u32, 0));
        }
        if let Some(set) = sets.weeks.last_mut() {
            set.1 = sets.numbers.len();
        }
        before = Some(entry);
        rest = after;
    }
    Ok(sets)
}

/// The output for a text, written from the buffer's start; gives its length. All lines are judged
/// first. Number 22, text line 0: the buffer is shorter than 40 bytes for each line to be written.
pub fn chart_text(rules: &Rules, text: &[u8], out: &mut [u8]) -> Result<usize, TextRefusal> {
    let sets = judge(rules, text)?;
    if (out.len() as i64) < rules.line_bytes * (sets.weeks.len() as i64 + 1) {
        return Err(TextRefusal {
            number: 22,
            line: 0,
        });
    }
    out[..OUTPUT_NAMES.len()].copy_from_slice(OUTPUT_NAMES);
    let mut length = OUTPUT_NAMES.len();
    let mut start = 0;
    // It prints wheat.
    let mut chart = Chart::fresh(0);
    for &(week, end) in &sets.weeks {
        let numbers = &sets.numbers[start..end];
        let charted = chart.set(rules, week, numbers, &mut out[length..]);
        let refusal = |number| TextRefusal { number, line: 0 };
        length += charted.map_err(refusal)?.length;
        start = end;
    }
    Ok(length)
}

/// What the chart program prints. On refusal it prints only one line: `refused`, the number and
/// the text line, single spaces, a line feed.
pub fn program(rules: &Rules, text: &[u8]) -> Vec<u8> {
    let lines = text.iter().filter(|&&byte| byte == b'\n').count();
    let mut out = vec![0; (lines + 1) * rules.line_bytes as usize];
    match chart_text(rules, text, &mut out) {
        Ok(length) => {
            out.truncate(length);
            out
        }
        Err(TextRefusal { number, line }) => format!("refused {number} {line}\n").into_bytes(),
    }
}
