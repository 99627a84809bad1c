//! Stored days in an older format, rewritten in the present one.

use super::{parted, Line};

/// What becomes of the words of a line, after these lines of the file in the present format. This alone is changed when a request changes the
/// format: a term more of an issue is a word more, a mark that becomes a date is a word exchanged. No request has changed it yet.
fn converted(words: &[&str], _above: &[Line]) -> Vec<String> {
    words.iter().map(|word| word.to_string()).collect()
}

/// The file, each line converted, read and written again. Comments and empty lines stay; panics at a line that cannot be read.
pub fn rewritten(text: &str) -> String {
    let (mut above, mut written) = (vec![], String::new());
    for line in text.split_inclusive('\n') {
        let (content, end) = line.split_at(line.trim_end_matches('\n').len());
        let (words, comment) = parted(content);
        if words.is_empty() {
            written += line;
            continue;
        }
        let words = converted(&words, &above);
        let words: Vec<&str> = words.iter().map(String::as_str).collect();
        let read = Line::read(&words).unwrap_or_else(|| panic!("{content:?} cannot be read as {:?}", words.join(" ")));
        let blank = if comment.is_empty() { "" } else { " " };
        written += &format!("{}{blank}{comment}{end}", read.text());
        above.push(read);
    }
    written
}
