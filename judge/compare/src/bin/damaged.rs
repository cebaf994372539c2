//! Damaged storage in a short form, for a tool that sees accesses outside of what is lent:
//! `valgrind --error-exitcode=1 --quiet target/release/damaged`.

use compare::overlay::{Entries, Exact};
use judge::compare::damaged;

fn main() {
    match damaged::short(&Entries(Exact)) {
        Ok(answers) => println!("{answers} answers are the same"),
        Err(difference) => {
            eprintln!("{difference}");
            std::process::exit(1);
        }
    }
}
