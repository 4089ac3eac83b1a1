//! Each public item has an example, which `cargo test` runs.

use std::fs;
use std::path::Path;

/// The public items of a module whose documentation has no example.
fn without_example(text: &str) -> Vec<String> {
    let (mut lacking, mut has_example) = (Vec::new(), false);
    for line in text.lines().map(str::trim) {
        let is_public = line.strip_prefix("pub ").is_some_and(|item| {
            ["fn ", "struct ", "enum ", "trait ", "const ", "type "].iter().any(|word| item.starts_with(word))
        });
        if is_public && !has_example {
            lacking.push(line.to_owned());
        }
        has_example = line.contains("/// ```") || has_example && (line.starts_with("///") || line.starts_with("#["));
    }
    lacking
}

#[test]
fn an_item_without_an_example_is_found() {
    let text = "/// One.\n/// ```\n/// ```\n#[inline]\npub fn one() {}\n/// Two.\npub fn two() {}\npub(crate) fn three() {}";
    assert_eq!(without_example(text), ["pub fn two() {}"]);
}

#[test]
fn each_public_item_has_an_example() {
    let folder = Path::new(env!("CARGO_MANIFEST_DIR")).join("src");
    let files = fs::read_dir(folder).unwrap().map(|it| it.unwrap().path());
    // (`raw` declares the exports of the library, and is private)
    let modules: Vec<_> = files.filter(|it| !it.ends_with("raw.rs")).collect();
    assert!(modules.len() > 5, "{modules:?}");
    for module in modules {
        assert_eq!(without_example(&fs::read_to_string(&module).unwrap()), [""; 0], "{module:?}");
    }
}
