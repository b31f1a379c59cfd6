//! Section "The book": the same answers from the list of accepted calls alone.

use crate::Refusal;
use crate::line::{self, Past, Verdict};
use crate::market::{self, Asked, Basis, Certificate, Request, Scan};
use crate::rules::Rules;
use crate::sheet::{self, Outcome};
use crate::station::{LinePhase, PastSet};

/// An accepted sheet or repair: each with its day, a sheet also with line, S, N, change and
/// whether it met every average due.
#[derive(Clone, Copy, Debug)]
enum Entry {
    Sheet {
        line: usize,
        set: PastSet,
        change: i64,
        met: bool,
    },
    Repair,
}

/// It holds the row, the day of the last accepted call (first 0) and all accepted sheets and
/// repairs in order.
#[derive(Clone, Debug)]
pub struct Book {
    row: i64,
    day: i64,
    entries: Vec<Entry>,
}

impl Book {
    /// The book of a row that exists.
    pub fn new(row: i64) -> Book {
        Book {
            row,
            day: 0,
            entries: Vec::new(),
        }
    }

    /// The entries touching a line, newest first. A repair touches all lines.
    fn touching(&self, asked: usize) -> impl Iterator<Item = &Entry> {
        self.entries.iter().rev().filter(move |entry| match entry {
            Entry::Sheet { line, .. } => *line == asked,
            Entry::Repair => true,
        })
    }

    /// A line's intercept is the sum of its sheets' changes.
    pub fn intercept(&self, line: usize) -> i64 {
        let change = |entry: &Entry| match entry {
            Entry::Sheet { change, .. } => *change,
            Entry::Repair => 0,
        };
        self.touching(line).map(change).sum()
    }

    /// It is open if the newest sheet or repair touching it is a sheet that met, check due if its
    /// newest sheet didn't meet, else new. Adjusted and shut are told by the change of such a line's
    /// newest sheet, which is 0 just when that sheet shut the line.
    pub fn phase(&self, line: usize) -> LinePhase {
        if let Some(Entry::Sheet { met: true, .. }) = self.touching(line).next() {
            return LinePhase::Open;
        }
        let is_sheet = |entry: &&Entry| matches!(entry, Entry::Sheet { .. });
        match self.touching(line).find(is_sheet) {
            Some(Entry::Sheet {
                met: false,
                change: 0,
                ..
            }) => LinePhase::Shut,
            Some(Entry::Sheet { met: false, .. }) => LinePhase::Adjusted,
            _ => LinePhase::New,
        }
    }

    /// Its past sets are its sheets later than its last repair and its last sheet that didn't
    /// meet, newest first.
    pub fn past(&self, line: usize) -> Vec<PastSet> {
        let met = |entry: &Entry| match entry {
            Entry::Sheet { set, met: true, .. } => Some(*set),
            _ => None,
        };
        self.touching(line).map_while(met).collect()
    }

    /// Its past sets that aren't zero, newest first.
    pub fn nonzero(&self, line: usize) -> Vec<PastSet> {
        let mut sets = self.past(line);
        sets.retain(|set| !set.is_zero());
        sets
    }

    pub fn sheet(
        &mut self,
        rules: &Rules,
        day: u32,
        line: u64,
        numbers: &[i32],
    ) -> Result<Outcome, Refusal> {
        let day = rules.day(self.day, day)?;
        let (product, line) = rules.asked(self.row, line)?;
        let limits = &product.lines[line];
        let intercept = self.intercept(line);
        let sums = sheet::sums(rules, product.samples, limits, intercept, numbers)?;
        let (s, n) = (sums.s, sums.n);
        let set = PastSet { day, s, n };
        let (newest, nonzero) = (self.past(line), self.nonzero(line));
        let past = Past {
            newest: &newest,
            nonzero: &nonzero,
        };
        let verdict: Verdict = line::verdict(rules, limits, intercept, self.phase(line), past, set);
        let change = verdict.change();
        self.entries.push(Entry::Sheet {
            line,
            set,
            change,
            met: verdict.met(),
        });
        self.day = day;
        Ok(Outcome {
            s,
            n,
            phase: self.phase(line).phase(),
            change,
        })
    }

    pub fn repair(&mut self, rules: &Rules, day: u32) -> Result<(), Refusal> {
        self.day = rules.day(self.day, day)?;
        self.entries.push(Entry::Repair);
        Ok(())
    }

    pub fn market(
        &mut self,
        rules: &Rules,
        day: u32,
        line: u64,
        scan: Scan,
        asked: Asked,
        basis: Basis,
    ) -> Result<Certificate, Refusal> {
        let day = rules.day(self.day, day)?;
        let (product, line) = rules.asked(self.row, line)?;
        let request = Request {
            row: self.row,
            product,
            day,
            line,
            intercept: self.intercept(line),
            phase: self.phase(line),
            newest: self.past(line).first().copied(),
        };
        let certificate = market::certify(rules, &request, scan, asked, basis)?;
        self.day = day;
        Ok(certificate)
    }
}
