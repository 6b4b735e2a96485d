//! The repository's README prints the example that is built here.

#[test]
fn prints_the_example() {
    let readme = include_str!("../../../README.md");
    let example = include_str!("../examples/two_desks.rs");
    let printed = format!("```rust\n{example}```\n");
    assert!(readme.contains(&printed), "README.md has not examples/two_desks.rs as it is");
}
