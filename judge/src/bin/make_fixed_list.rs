//! Prints the fixed list, or with the word `questions` its questions alone.

fn main() {
    match std::env::args().nth(1).as_deref() {
        None => print!("{}", judge::fixed_list()),
        Some("questions") => print!("{}", judge::fixed_questions()),
        Some(other) => panic!("no such word: {other}"),
    }
}
