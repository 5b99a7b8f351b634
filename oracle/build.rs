//! Takes the planner's sources into target/source/, each with one line added that declares a module of ours inside
//! it, and makes a second copy of planner.rs that counts what happens while it plans. With the feature `compare` it
//! also names the static library to link.

use std::fs;
use std::path::{Path, PathBuf};

/// The texts that are replaced in the counting copy, and by what. Each must stand in the source exactly once.
const COUNTING: &[(&str, &str)] = &[
    (
        "        for (c, cluster) in clusters.iter().enumerate() {",
        "        crate::tally::clusters(clusters.len());
        for (c, cluster) in clusters.iter().enumerate() {",
    ),
    (
        "        if !seen.insert(tag.to_lowercase()) {",
        "        if seen.contains(&tag.to_lowercase()) {
            crate::tally::note(\"a second spelling dropped\");
        }
        if !seen.insert(tag.to_lowercase()) {",
    ),
    (
        "                if let Some(merged) = merge(key, &reads) {
                    reads = merged.reads;",
        "                if let Some(merged) = merge(key, &reads) {
                    crate::tally::note(\"merge of a together struct\");
                    reads = merged.reads;",
    ),
    (
        "    let limit = packets(&sizes_of(&reads), budget);",
        "    let plain: Vec<(usize, usize)> = tags.iter().map(|tag| read_size(tag, catalog)).collect();
    let limit = packets(&sizes_of(&reads), budget);
    crate::tally::limit(packets(&plain, budget), limit);",
    ),
    (
        "        let mut best: Option<(String, Merged)> = None;",
        "        let mut round = crate::tally::Round::default();
        let mut best: Option<(String, Merged)> = None;",
    ),
    (
        "            if merged.extra > i128::from(BYTES_PER_READ) * merged.saved as i128",
        "            let refused = round.refused(
                merged.extra > i128::from(BYTES_PER_READ) * merged.saved as i128,
                no_group.contains(&merged.name.to_lowercase()),
                packets(&sizes_of(&merged.reads), budget) > limit,
            );
            if !refused {
                round.offer(merged.extra, merged.saved);
            }
            if merged.extra == i128::from(BYTES_PER_READ) * merged.saved as i128 {
                crate::tally::note(\"cost exactly at the limit\");
            }
            if merged.extra > i128::from(BYTES_PER_READ) * merged.saved as i128",
    ),
    (
        "        let Some((key, merged)) = best else { break };",
        "        let Some((key, merged)) = best else { break };
        round.chosen(merged.extra, merged.saved, runs.contains_key(&key));",
    ),
];

fn main() {
    let oracle = PathBuf::from(env("CARGO_MANIFEST_DIR"));
    let source = match std::env::var("RUVANGIXO_RUST") {
        Ok(folder) => PathBuf::from(folder),
        Err(_) => oracle.join("../../shared/docs/src"),
    };
    let source = source.join("crates/ciplink-server/src");
    let target = oracle.join("target/source");
    fs::create_dir_all(&target).expect("target/source can be made");
    println!("cargo:rerun-if-env-changed=RUVANGIXO_RUST");
    println!("cargo:rustc-env=RUVANGIXO_SOURCE={}", source.display());
    for name in ["planner", "plc"] {
        let text = take(&source.join(format!("{name}.rs")));
        place(&target.join(format!("{name}.rs")), &with_reach(&text, name));
    }
    let planner = take(&source.join("planner.rs"));
    place(&target.join("counted.rs"), &with_reach(&counted(planner), "planner"));
    if std::env::var_os("CARGO_FEATURE_COMPARE").is_some() {
        link(&oracle.join("../target/staticlib"));
    }
}

fn env(name: &str) -> String {
    std::env::var(name).unwrap_or_else(|_| panic!("cargo sets {name}"))
}

fn take(path: &Path) -> String {
    println!("cargo:rerun-if-changed={}", path.display());
    let fault = |e| panic!("{}: {e} (RUVANGIXO_RUST names the folder of the Rust sources)", path.display());
    fs::read_to_string(path).unwrap_or_else(fault)
}

/// The source and one line more, through which the oracle calls its private functions.
fn with_reach(text: &str, name: &str) -> String {
    format!("{text}#[path = \"../../src/reach/{name}.rs\"] pub mod reach;\n")
}

fn counted(mut text: String) -> String {
    for (from, to) in COUNTING {
        assert_eq!(text.matches(from).count(), 1, "not exactly once in planner.rs: {from}");
        text = text.replacen(from, to, 1);
    }
    text
}

/// Writes a copy, but leaves one alone that is right already, so that nothing is built again for it.
fn place(path: &Path, text: &str) {
    println!("cargo:rerun-if-changed={}", path.display());
    if fs::read_to_string(path).ok().as_deref() != Some(text) {
        fs::write(path, text).unwrap_or_else(|e| panic!("{}: {e}", path.display()));
    }
}

fn link(folder: &Path) {
    println!("cargo:rerun-if-changed={}", folder.join("libembed.a").display());
    println!("cargo:rustc-link-search=native={}", folder.display());
    println!("cargo:rustc-link-lib=static=embed");
}
