// Links the archive that `rt lib` writes in crates/c_api, and puts into Rust what include/allocation.h names: its numbers as constants, and the
// places that it describes beside a number, as "+ 12 * basket + participant", as functions of these words.
use std::{env, fs, path::Path};

/// A name of the header's enum without its prefix, its number, and the place described beside it.
struct Named<'a> {
    name: &'a str,
    number: usize,
    place: Option<&'a str>,
}

/// A number is a product of numbers and of names above it.
fn number(value: &str, known: &[Named]) -> usize {
    let factor = |word: &str| match word.strip_prefix("ALLOCATION_") {
        Some(name) => known.iter().find(|known| known.name == name).unwrap_or_else(|| panic!("{word} is not above {value}")).number,
        None => word.parse().unwrap_or_else(|_| panic!("{word} in: {value}")),
    };
    value.split('*').map(|word| factor(word.trim())).product()
}

fn named(header: &str) -> Vec<Named<'_>> {
    let mut known = vec![];
    for line in header.lines() {
        let Some((name, rest)) = line.trim().strip_prefix("ALLOCATION_").and_then(|line| line.split_once(" = ")) else { continue };
        let (value, comment) = rest.split_once("/*").unwrap_or((rest, ""));
        let number = number(value.trim().trim_end_matches(','), &known);
        let place = comment.trim().strip_prefix('+').and_then(|comment| comment.split(':').next());
        known.push(Named { name, number, place });
    }
    known
}

fn constant(named: &Named) -> String {
    format!("pub const {}: usize = {};\n", named.name, named.number)
}

/// The function of a place that is described: `pub const fn positions(basket: usize, participant: usize) -> usize { 1972 + 12 * basket + participant }`.
fn function(named: &Named) -> String {
    let Some(place) = named.place else { return String::new() };
    let words = place.split(['+', '*', ' ']).filter(|word| word.starts_with(char::is_alphabetic));
    let parameters: Vec<String> = words.map(|word| format!("{word}: usize")).collect();
    let (name, number) = (named.name.to_lowercase(), named.number);
    format!("pub const fn {name}({}) -> usize {{ {number} + {} }}\n", parameters.join(", "), place.trim())
}

fn in_rust(header: &str) -> String {
    let all = named(header);
    let names: Vec<String> = all.iter().map(|named| format!("\"{}\"", named.name)).collect();
    let code: String = all.iter().flat_map(|named| [constant(named), function(named)]).collect();
    format!("{code}/// Every name of the enum.\npub const NAMES: [&str; {}] = [{}];\n", names.len(), names.join(", "))
}

fn main() {
    let folder = concat!(env!("CARGO_MANIFEST_DIR"), "/../crates/c_api/out");
    println!("cargo:rustc-link-search=native={folder}");
    println!("cargo:rustc-link-lib=static=c_api");
    println!("cargo:rerun-if-changed={folder}/libc_api.a");

    let header = concat!(env!("CARGO_MANIFEST_DIR"), "/../include/allocation.h");
    println!("cargo:rerun-if-changed={header}");
    let text = in_rust(&fs::read_to_string(header).expect(header));
    fs::write(Path::new(&env::var("OUT_DIR").expect("a folder to write to")).join("header.rs"), text).expect("what the header names");
}
