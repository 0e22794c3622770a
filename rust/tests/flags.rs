//! The build's flags are those that c/processors.txt has for the same processor.

#[path = "../build/targets.rs"]
#[allow(dead_code)]
mod targets;

use std::collections::HashSet;

fn row_of(table: &str, name: &str) -> HashSet<String> {
    let rows = table.lines().filter(|line| !line.starts_with('#'));
    let row = rows
        .map(|line| line.split('|').map(str::trim).collect::<Vec<_>>())
        .find(|row| row[0] == name);
    row.unwrap_or_else(|| panic!("c/processors.txt has no {name}"))[3]
        .split_whitespace()
        .map(str::to_string)
        .collect()
}

/// What isn't compared: warnings, and whether code is independent of its place, which Rust's targets have their own way about.
fn counts(flag: &str) -> bool {
    !flag.starts_with("-W")
        && !["-pedantic-errors", "-fPIE", "-fno-pie", "-fPIC", "-mthumb"].contains(&flag)
}

fn words(flags: &str) -> HashSet<String> {
    flags
        .split_whitespace()
        .filter(|flag| counts(flag))
        .map(str::to_string)
        .collect()
}

#[test]
fn flags_are_those_of_the_table() {
    let path = concat!(env!("CARGO_MANIFEST_DIR"), "/../c/processors.txt");
    let table = std::fs::read_to_string(path).expect("the repository's table");
    let wanted = |name| -> HashSet<String> {
        row_of(&table, name)
            .into_iter()
            .filter(|flag| counts(flag))
            .collect()
    };
    assert_eq!(
        words(targets::EACH)
            .union(&words(targets::GNU))
            .cloned()
            .collect::<HashSet<_>>(),
        wanted("each")
    );
    for (name, target) in targets::TARGETS
        .iter()
        .filter(|(_, target)| !target.row.is_empty())
    {
        assert_eq!(words(target.flags), wanted(target.row), "{name}");
    }
}
