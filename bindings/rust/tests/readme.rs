//! The repository's README shows the examples of this crate's README, which are run as doc tests.

/// The blocks of Rust in a page.
fn examples(page: &str) -> Vec<&str> {
    let blocks = page.split("```rust\n").skip(1);
    blocks
        .map(|block| block.split_once("```").expect("the end of the block").0)
        .collect()
}

/// Both pages have the same four examples.
#[test]
fn same_examples() {
    let own = examples(include_str!("../README.md"));
    let repository = examples(include_str!("../../../README.md"));
    assert_eq!(own.len(), 4);
    assert_eq!(own, repository);
}
