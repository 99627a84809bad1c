//! The stored days of crates/allocate, which come with right answers, through the reference and the library.
//! `stored_days FOLDER`: the crate's folder, with args (a day file to a line), data/ and stdout (their answers, one after the other).

use allocation_tests::compare::SIDES;
use allocation_tests::dayfile::answers;
use std::fs::read_to_string;
use std::path::Path;

fn main() {
    let folder = std::env::args().nth(1).expect("the folder of crates/allocate");
    let read = |file: &str| read_to_string(Path::new(&folder).join(file)).unwrap_or_else(|error| panic!("{file}: {error}"));
    let (names, answered) = (read("args"), read("stdout"));
    let names: Vec<&str> = names.lines().filter(|name| name.ends_with(".day")).collect();
    let stored: Vec<&str> = answered.lines().collect();
    let mut at = 0;
    for name in &names {
        let day = read(&format!("data/{name}"));
        let given = SIDES.map(|(_, side)| answers(side, &day));
        for ((side, _), given) in SIDES.iter().zip(&given) {
            if let Some(k) = (0..given.len()).find(|k| stored.get(at + k) != Some(&given[*k].as_str())) {
                panic!("{side} differs on {name} at answer {}: {}, stored {:?}", k + 1, given[k], stored.get(at + k));
            }
        }
        assert!(given.iter().all(|own| own.len() == given[0].len()), "{name}: as many answers of each");
        at += given[0].len();
    }
    assert!(at > 0, "no stored day");
    println!("stored days: {} days, {at} answers; reference and library answer as stored", names.len());
}
