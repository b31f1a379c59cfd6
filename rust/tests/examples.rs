//! The programs of examples/ print what the file beside each says.

use std::path::Path;
use std::process::Command;

/// Runs an example as a user does.
fn printed(name: &str) -> String {
    let mut cargo = Command::new(env!("CARGO"));
    cargo.args(["run", "--quiet", "--offline", "--example", name]);
    if !cfg!(debug_assertions) {
        cargo.arg("--release");
    }
    let ran = cargo
        .current_dir(env!("CARGO_MANIFEST_DIR"))
        .output()
        .unwrap();
    let errors = String::from_utf8_lossy(&ran.stderr);
    assert!(ran.status.success(), "{name}: {errors}");
    String::from_utf8(ran.stdout).unwrap()
}

#[test]
fn examples_print_what_is_expected() {
    let folder = Path::new(env!("CARGO_MANIFEST_DIR")).join("examples");
    let mut names: Vec<String> = std::fs::read_dir(&folder)
        .unwrap()
        .map(|entry| entry.unwrap().file_name().into_string().unwrap())
        .filter_map(|file| file.strip_suffix(".rs").map(str::to_string))
        .collect();
    names.sort();
    assert_eq!(names, ["calendar_and_lot", "chart_text", "station_day"]);
    for name in names {
        let expected = std::fs::read_to_string(folder.join(format!("{name}.out"))).unwrap();
        assert_eq!(printed(&name), expected, "{name}");
    }
}
