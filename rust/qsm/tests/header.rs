//! The declarations in Rust beside those of `include/qsm.h`: every function, every struct with its places, and the numbers of names.

use std::collections::{BTreeMap, BTreeSet};
use std::fs;
use std::path::Path;

fn read(name: &str) -> String {
    fs::read_to_string(Path::new(env!("CARGO_MANIFEST_DIR")).join(name)).unwrap()
}

fn header() -> String {
    read("../../include/qsm.h")
}

/// All sources of the crate.
fn sources() -> String {
    fs::read_dir(Path::new(env!("CARGO_MANIFEST_DIR")).join("src"))
        .unwrap()
        .map(|entry| fs::read_to_string(entry.unwrap().path()).unwrap())
        .collect()
}

/// The words of a text: names and numbers.
fn words(text: &str) -> Vec<&str> {
    text.split(|c: char| !c.is_alphanumeric() && c != '_').filter(|word| !word.is_empty()).collect()
}

/// The words between each `begin(` and the `)` that follows it.
fn calls<'a>(text: &'a str, begin: &str) -> Vec<Vec<&'a str>> {
    text.split(&format!("\n{begin}("))
        .skip(1)
        .map(|rest| words(&rest[..rest.find(");").unwrap()]))
        .collect()
}

/// The functions that a text declares by lines that begin so.
fn functions(text: &str, begins: impl Fn(&str) -> bool) -> BTreeSet<&str> {
    text.lines()
        .filter(|line| begins(line))
        .filter_map(|line| words(&line[..line.find('(')?]).pop())
        .filter(|name| name.starts_with("qsm_"))
        .collect()
}

#[test]
fn functions_are_the_headers() {
    let (header, sources) = (header(), sources());
    let declared = functions(&sources, |line| line.starts_with("    fn qsm_"));
    assert_eq!(declared, functions(&header, |line| line.starts_with(|c: char| c.is_ascii_lowercase())));
    assert!(declared.len() > 30);
}

/// Structs by name: alignment and size, and the place of each field.
type Structs = BTreeMap<String, (Vec<String>, BTreeMap<String, String>)>;

#[test]
fn structs_are_the_headers() {
    // One declaration to a line.
    let header = header().replace("; QSM_", ";\nQSM_");
    let mut theirs = Structs::new();
    for call in calls(&header, "QSM_STRUCT") {
        theirs.insert(call[0].into(), (call[1..].iter().map(|&word| word.into()).collect(), BTreeMap::new()));
    }
    for call in calls(&header, "QSM_AT") {
        theirs.get_mut(call[0]).unwrap().1.insert(call[1].into(), call[2].into());
    }
    let ours: Structs = calls(&read("src/layout.rs"), "layout!")
        .iter()
        .map(|call| {
            let fields = call[3..].chunks(2).map(|pair| (pair[0].into(), pair[1].into())).collect();
            (name_in_c(call[0]), (call[1..3].iter().map(|&word| word.into()).collect(), fields))
        })
        .collect();
    assert!(ours.len() > 30);
    assert_eq!(ours, theirs);
}

fn name_in_c(name: &str) -> String {
    match name {
        "Module" => "qsm".into(),
        "Changed" | "Given" => format!("qsm_editions_{}", name.to_lowercase()),
        "Told" => "qsm_lines_told".into(),
        "Plan" => "qsm_queue_plan".into(),
        "Put" => "qsm_plan_put".into(),
        _ => name.chars().fold("qsm".into(), |text, c| {
            if c.is_uppercase() {
                text + "_" + &c.to_lowercase().to_string()
            } else {
                text + &c.to_string()
            }
        }),
    }
}

/// Numbers, as `const NAME: TYPE = NUMBER` in `numbers.rs` and as `QSM_NAME = NUMBER` in the header.
#[test]
fn numbers_are_the_headers() {
    let header = header();
    let theirs: BTreeSet<(&str, &str)> = words(&header)
        .windows(2)
        .filter(|pair| pair[1].starts_with(|c: char| c.is_ascii_digit()))
        .filter_map(|pair| Some((pair[0].strip_prefix("QSM_")?, pair[1])))
        .collect();
    let mut count = 0;
    for part in read("src/numbers.rs").split("pub mod ").skip(1) {
        let prefix = match words(part)[0] {
            "told" | "cause" => "LINES_",
            _ => "",
        };
        for line in part.lines().filter_map(|line| line.trim().strip_prefix("pub const ")) {
            let [name, _, number] = words(line)[..] else { panic!("{line}") };
            let name = format!("{prefix}{name}");
            assert!(theirs.contains(&(&name, number)), "{name} is not {number} in the header");
            count += 1;
        }
    }
    assert!(count > 40);
    assert!(theirs.contains(&("VERSION", &qsm::VERSION.to_string())));
}

#[test]
fn archive_is_of_this_version() {
    assert_eq!(qsm::version(), qsm::VERSION);
}
