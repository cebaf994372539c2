//! The fixed list is the one that the project keeps.

/// Where the project holds the list for its replay, it is this list: the questions are what the program reads, the list what it must write.
#[test]
fn kept_list_is_this_list() {
    let folder = std::path::Path::new(env!("CARGO_MANIFEST_DIR")).join("../crates/replay");
    let made = [("stdin", judge::fixed_questions()), ("stdout", judge::fixed_list())];
    for (name, text) in made {
        let kept = std::fs::read_to_string(folder.join(name)).expect(name);
        assert!(kept == text, "{name}: made anew it differs");
    }
}
