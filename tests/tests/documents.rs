//! Holds the documents to the lists that they speak of.

use std::collections::BTreeSet;
use std::fs;

use oracle::conformance::{cases, COUNT};
use oracle::suggestion::vectors;

#[test]
fn each_case_that_a_document_names_is_in_the_list() {
    let names: BTreeSet<String> = cases()
        .into_iter()
        .map(|case| without_mode(&case.name))
        .collect();
    for document in ["docs/RULES.md", "docs/DIFFERENCES.md"] {
        let text = read(document);
        let quoted = text.split('`').skip(1).step_by(2);
        let named: Vec<&str> = quoted.filter(|word| is_name(word)).collect();
        assert!(named.len() > 30, "{document} names few cases");
        for name in named {
            assert!(names.contains(name), "{document}: {name}");
        }
    }
}

#[test]
fn the_counts_of_cases_and_of_vectors_are_said() {
    let (thousands, rest) = (COUNT / 1000, COUNT % 1000);
    let cases = format!("`cases.txt` has {thousands},{rest:03} cases");
    let suggestions = format!("`suggestions.txt` has {} questions", vectors::COUNT);
    for said in [cases, suggestions] {
        assert!(read("conformance/README.md").contains(&said), "{said}");
    }
}

/// Small letters and digits with hyphens between, as the names of cases are.
fn is_name(word: &str) -> bool {
    let part = |part: &str| {
        !part.is_empty()
            && part
                .bytes()
                .all(|b| b.is_ascii_lowercase() || b.is_ascii_digit())
    };
    word.contains('-') && word.split('-').all(part)
}

/// The name as the documents have it.
fn without_mode(name: &str) -> String {
    let (rule, _) = name.rsplit_once('-').expect("a name ends with its mode");
    rule.to_string()
}

fn read(file: &str) -> String {
    let root = concat!(env!("CARGO_MANIFEST_DIR"), "/../");
    fs::read_to_string(root.to_string() + file).unwrap()
}
