//! Charts a text of wheat protein results, and says which line of a bad one is refused and why.
//!
//!     cargo run --example chart_text

use grain::{TextRefusal, chart_text};

const GOOD: &str = "\
week sample original monitor
26 1 1315 1307
26 2 1018 1054
26 3 1447 1479
26 4 1256 1223
26 5 1857 1877
27 1 1039 1000
27 2 1000 1000
";

/// The monitor's result is written with a point, where hundredths have none.
const BAD: &str = "\
week sample original monitor
26 1 1315 1307
26 2 1018 10.54
";

fn say(text: &str) -> Result<(), TextRefusal> {
    let charted = chart_text(text.as_bytes())?;
    print!("{}", String::from_utf8_lossy(&charted));
    Ok(())
}

fn main() {
    for text in [GOOD, BAD] {
        if let Err(refused) = say(text) {
            println!("{refused}");
        }
    }
}
