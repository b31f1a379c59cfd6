//! What the accepted sheets and repairs of a list did to a line: how it came to its phase. Only counted,
//! never judged by.

use grain_model::{LinePhase, Verdict};

use crate::met::Met;
use crate::stations::Request;

/// What touched a line.
#[derive(Clone, Copy, Debug, PartialEq, Eq)]
pub enum Event {
    Sheet {
        day: i64,
        /// The line's phase before the sheet.
        before: LinePhase,
        verdict: Verdict,
    },
    Repair,
}

/// The events of a line from its opening on, oldest first.
pub type History = Vec<Event>;

/// The newest sheet's day, the phase before it and its verdict.
fn newest_sheet(history: &[Event]) -> Option<(i64, LinePhase, Verdict)> {
    history.iter().rev().find_map(|event| match event {
        Event::Sheet {
            day,
            before,
            verdict,
        } => Some((*day, *before, *verdict)),
        Event::Repair => None,
    })
}

/// The verdict of the newest sheet that didn't meet.
fn newest_unmet(history: &[Event]) -> Option<Verdict> {
    history.iter().rev().find_map(|event| match event {
        Event::Sheet { verdict, .. } if !verdict.met() => Some(*verdict),
        _ => None,
    })
}

fn repaired(history: &[Event]) -> bool {
    history.last() == Some(&Event::Repair)
}

/// The ways to a market test that 12, 25 or 26 refuses.
pub fn count_not_open(met: &mut Met, lines: &[History; 3], request: Request, number: u8) {
    if ![12, 25, 26].contains(&number) {
        return;
    }
    let history = &lines[request.line as usize];
    match number {
        12 => count_new(met, history),
        25 => count_adjusted(met, history),
        _ => count_shut(met, history),
    }
    let age = |sheet: i64| i64::from(request.day) - sheet;
    let old = newest_sheet(history).is_some_and(|(sheet, ..)| age(sheet) > 7);
    met.branch_if(
        number == 25 && old,
        "market: 25, newest sheet more than 7 days old",
    );
    met.branch_if(
        number == 26 && old,
        "market: 26, newest sheet more than 7 days old",
    );
}

fn count_new(met: &mut Met, history: &[Event]) {
    let Some((.., verdict)) = newest_sheet(history) else {
        met.branch(match repaired(history) {
            false => "market: 12, fresh line",
            true => "market: 12, fresh line repaired",
        });
        return;
    };
    // A line that isn't open after a sheet is new only after a repair.
    if !verdict.met() || !repaired(history) {
        return;
    }
    met.branch(match newest_unmet(history) {
        None => "market: 12, open line repaired",
        Some(Verdict::Adjusted(..)) => "market: 12, line adjusted, opened and repaired",
        Some(_) => "market: 12, line shut, opened and repaired",
    });
}

fn count_adjusted(met: &mut Met, history: &[Event]) {
    let Some((_, before, Verdict::Adjusted(..))) = newest_sheet(history) else {
        return;
    };
    met.branch(match before {
        LinePhase::New => "market: 25, new line adjusted",
        LinePhase::Open => "market: 25, open line adjusted",
        LinePhase::Adjusted => "market: 25, adjusted line adjusted by its check",
        LinePhase::Shut => "market: 25, shut line adjusted by its check",
    });
    met.branch_if(repaired(history), "market: 25, adjusted line repaired");
}

fn count_shut(met: &mut Met, history: &[Event]) {
    let Some((_, before, verdict)) = newest_sheet(history) else {
        return;
    };
    let repaired = repaired(history);
    match verdict {
        Verdict::NothingKept => {
            met.branch(match before {
                LinePhase::New => "market: 26, nothing kept, new line",
                LinePhase::Open => "market: 26, nothing kept, open line",
                LinePhase::Adjusted => "market: 26, nothing kept, adjusted line",
                LinePhase::Shut => "market: 26, nothing kept, shut line",
            });
            met.branch_if(repaired, "market: 26, nothing kept, repaired");
        }
        Verdict::Bounded(_) => {
            met.branch(match before {
                LinePhase::New => "market: 26, at the bound, new line",
                LinePhase::Open => "market: 26, at the bound, open line",
                LinePhase::Adjusted => "market: 26, at the bound, adjusted line",
                LinePhase::Shut => "market: 26, at the bound, shut line",
            });
            met.branch_if(repaired, "market: 26, at the bound, repaired");
        }
        Verdict::Met | Verdict::Adjusted(..) => {}
    }
}

/// Of a sheet just judged: a check after a repair that adjusts where a new line would be open.
pub fn count_check_after_repair(met: &mut Met, history: &[Event], within_one: bool) {
    let [
        ..,
        Event::Repair,
        Event::Sheet {
            before, verdict, ..
        },
    ] = history
    else {
        return;
    };
    match (before, verdict) {
        (LinePhase::Adjusted, Verdict::Adjusted(..)) if within_one => {
            met.branch("sheet: check exceeded after a repair, adjusted line");
        }
        (LinePhase::Shut, Verdict::Adjusted(..)) if within_one => {
            met.branch("sheet: check exceeded after a repair, shut line");
        }
        (LinePhase::Adjusted, Verdict::Met) => {
            met.branch("sheet: check met after a repair, adjusted line");
        }
        (LinePhase::Shut, Verdict::Met) => {
            met.branch("sheet: check met after a repair, shut line");
        }
        _ => {}
    }
}
