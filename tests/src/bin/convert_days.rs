//! Day files, each read, brought to the present format and written again.
//! `convert_days FILE ..` fails where a file is not what is written of it; `convert_days --write FILE ..` puts what is written in its place.

use allocation_tests::dayfile::{lines, rewritten};
use std::fs::{read_to_string, write};

/// Panics at the first line that is not as it is written.
fn check(file: &str, text: &str, again: &str) {
    if let Some((k, (was, is))) = text.lines().zip(again.lines()).enumerate().find(|(_, (was, is))| was != is) {
        panic!("{file}, line {}: {was:?} is written {is:?}", k + 1);
    }
    assert!(text == again, "{file}: other lines");
}

fn main() {
    let (options, files): (Vec<String>, Vec<String>) = std::env::args().skip(1).partition(|word| word.starts_with("--"));
    let replace = match options.iter().map(String::as_str).collect::<Vec<_>>()[..] {
        [] => false,
        ["--write"] => true,
        _ => panic!("convert_days [--write] FILE .."),
    };
    assert!(!files.is_empty(), "no file");
    let mut count = 0;
    for file in &files {
        let text = read_to_string(file).unwrap_or_else(|error| panic!("{file}: {error}"));
        let again = rewritten(&text);
        if replace {
            write(file, &again).unwrap_or_else(|error| panic!("{file}: {error}"));
        } else {
            check(file, &text, &again);
        }
        count += lines(&again).len();
    }
    println!("day files: {} files, {count} lines; read and written again {}", files.len(), if replace { "in their place" } else { "as they are" });
}
