//! The declarations of this crate against the exports of crates/gateway, name by name and argument by argument: the linker checks
//! names alone.

use std::collections::BTreeMap;
use std::path::{Path, PathBuf};

/// A function's arguments and answer, as C sees them.
type Signature = (Vec<String>, String);

/// The text between a function's parentheses and its answer; `head` is cut off already.
fn signature(text: &str, as_c: fn(&str) -> Vec<&str>) -> (String, Signature) {
    let (name, rest) = text.split_once('(').expect("a list of arguments");
    let name = name.trim_end_matches("<'a>");
    let (arguments, rest) = rest.split_once(')').expect("its end");
    let types = arguments
        .split(',')
        .filter_map(|a| a.split_once(':'))
        .map(|(_, ty)| ty.trim());
    let rest = rest.trim_start();
    let answer = rest
        .strip_prefix("->")
        .and_then(|a| a.split_whitespace().next())
        .unwrap_or("");
    let answer = answer.trim_end_matches([';', '{']).to_string();
    (
        name.trim().to_string(),
        (types.flat_map(as_c).map(str::to_string).collect(), answer),
    )
}

/// All functions of a text after such a head.
fn signatures(text: &str, head: &str, as_c: fn(&str) -> Vec<&str>) -> BTreeMap<String, Signature> {
    text.split(head)
        .skip(1)
        .filter(|t| t.starts_with("gateway_"))
        .map(|t| signature(t, as_c))
        .collect()
}

/// A slice crosses as a pointer and a length.
fn crossing(ty: &str) -> Vec<&str> {
    match ty {
        "&[u8]" | "&'a [u8]" => vec!["*const u8", "usize"],
        "&[u32]" => vec!["*const u32", "usize"],
        "&mut [u8]" => vec!["*mut u8", "usize"],
        "&mut [u32]" => vec!["*mut u32", "usize"],
        "&mut [u64]" => vec!["*mut u64", "usize"],
        other => vec![other],
    }
}

fn file(path: &Path) -> String {
    std::fs::read_to_string(path).unwrap_or_else(|e| panic!("{}: {e}", path.display()))
}

#[test]
fn every_export_is_declared_as_it_is() {
    let here = Path::new(env!("CARGO_MANIFEST_DIR"));
    let declared = signatures(&file(&here.join("src/ffi.rs")), "pub fn ", |ty| vec![ty]);
    let sources = std::fs::read_dir(here.join("../../crates/gateway/src")).expect("the exports");
    let mut sources: Vec<PathBuf> = sources.map(|e| e.expect("an entry").path()).collect();
    sources.sort();
    let text: String = sources.iter().map(|p| file(p)).collect();
    let exported = signatures(&text, "pub extern \"C\" fn ", crossing);
    assert!(exported.len() >= 9, "{} exports", exported.len());
    for (name, signature) in &exported {
        assert_eq!(declared.get(name), Some(signature), "{name}");
    }
    assert_eq!(declared.keys().collect::<Vec<_>>(), exported.keys().collect::<Vec<_>>());
}
