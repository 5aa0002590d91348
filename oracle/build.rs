//! Cuts the graph out of the given files, which stand beside the repository.
//! Every place to cut at must be found exactly once, so that a changed file
//! stops the build.

use std::{env, fs, path::Path};

const OPERATION: &str = "src--beekem--src--operation.rs.txt";
const PREDECESSORS: &str = "src--beekem--src--predecessors.rs.txt";
const MAP: &str = "src--beekem--src--content_addressed_map.rs.txt";
const TRANSACT: &str = "src--beekem--src--transact.rs.txt";

/// A derive for the tests of the given crate.
const ARBITRARY: &str =
    "#[cfg_attr(any(test, feature = \"arbitrary\"), derive(arbitrary::Arbitrary))]\n";

fn main() {
    println!("cargo:rerun-if-changed=build.rs");
    write("transact.rs", &body(TRANSACT));
    write("content_addressed_map.rs", &body(MAP));
    write("predecessors.rs", &predecessors());
    write("operation.rs", &operation());
}

/// All of predecessors.rs but its encoding.
fn predecessors() -> String {
    let text = body(PREDECESSORS);
    let text = without(
        &text,
        "use keyhive_codec::{",
        "use keyhive_crypto::digest::Digest;",
    );
    let text = without(
        &text,
        "/// A count and then the digests, ascending.",
        "/// A search back through an operation's causal past,",
    );
    without(&text, ARBITRARY, "pub struct Predecessors(")
}

/// Of operation.rs the batch, the operation and the graph, without two
/// functions that nothing here calls.
fn operation() -> String {
    let text = body(OPERATION);
    let batch = between(
        &text,
        "/// An ordered [`NonEmpty`] of [`CgkaOperation`]s",
        "/// A root secret wrapped by an [`Invitation`].",
    );
    let operation = between(
        &text,
        "/// A change to a tree, with the tree it applies to",
        "/// `doc_id ‖ predecessors ‖ change`",
    );
    let operation = without(
        operation,
        "    /// Whether this is an add or a remove.",
        "    /// Whether this is an update.",
    );
    assert_eq!(
        operation.matches(ARBITRARY).count(),
        2,
        "{OPERATION}: derives"
    );
    let operation = operation.replace(ARBITRARY, "");
    let graph = &text[place(&text, "/// Causal graph of [`CgkaOperation`]s.")..];
    let graph = without(
        graph,
        "    /// The share key at the root of the update",
        "    /// Whether every one of `op_hashes` is in the graph.",
    );
    [batch, &operation, &graph].concat()
}

/// A given file without its `//!` lines, which `include!` does not take.
fn body(name: &str) -> String {
    let path = Path::new(env!("CARGO_MANIFEST_DIR"))
        .join("../../shared")
        .join(name);
    println!("cargo:rerun-if-changed={}", path.display());
    let text = fs::read_to_string(&path).unwrap_or_else(|e| panic!("{}: {e}", path.display()));
    text.split_inclusive('\n')
        .filter(|line| !line.starts_with("//!"))
        .collect()
}

/// Where `anchor` stands in `text`.
fn place(text: &str, anchor: &str) -> usize {
    let places: Vec<usize> = text.match_indices(anchor).map(|(at, _)| at).collect();
    assert_eq!(places.len(), 1, "places of {anchor:?}");
    places[0]
}

/// The text from `from` up to `to`.
fn between<'a>(text: &'a str, from: &str, to: &str) -> &'a str {
    &text[place(text, from)..place(text, to)]
}

/// The text without what `between` gives.
fn without(text: &str, from: &str, to: &str) -> String {
    let (from, to) = (place(text, from), place(text, to));
    assert!(from < to);
    [&text[..from], &text[to..]].concat()
}

fn write(name: &str, text: &str) {
    fs::write(Path::new(&env::var("OUT_DIR").unwrap()).join(name), text).unwrap();
}
