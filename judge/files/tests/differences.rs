//! The inputs of docs/DIFFERENCES.md that are files: what `roadfile` has to print, what the Rust does over quick-xml 0.26, and the class.

use files::compare::{Class, class};
use files::edge::bytes;
use files::file::{ROADFILE, answer};
use files::rust;

/// A file in the edge table's notation, what is printed for it, and its class.
#[track_caller]
fn row(input: &str, printed: &str, name: &str) {
    let file = bytes(input);
    let (answer, theirs) = (answer(&file, &ROADFILE), rust::listing_of(&file));
    assert_eq!(String::from_utf8_lossy(&answer.outcome.print()), String::from_utf8_lossy(&bytes(printed)), "{input}");
    let found = class(&answer, &theirs).unwrap_or_else(|why| panic!("{input}: {why}"));
    let (Class::OnlyRust(found) | Class::OnlyPort(found) | Class::ReadDifferently(found)) = found else {
        panic!("{input}: {found}, {theirs:?}")
    };
    assert_eq!(found, name, "{input}");
}

/// Refused with 25 at line 1, and taken by the Rust.
#[track_caller]
fn only_rust(name: &str, inputs: &[&str]) {
    for input in inputs {
        row(input, "refused\\t25\\t1\\t-\\n", name);
    }
}

#[test]
fn only_the_rust_takes() {
    only_rust("DOCTYPE", &["<!DOCTYPE a><osmChange/>", "<!DOCTYPE><osmChange/>", "<!doctype a><osmChange/>"]);
    only_rust("CDATA", &["<![CDATA[]]><osmChange/>", "<![cdata[]]><osmChange/>"]);
    only_rust("a declared encoding other than UTF-8", &["<?xml version=\"1.0\" encoding=\"UTF8\"?><osmChange/>"]);
    only_rust(
        "a declaration that is not XML 1.0's",
        &["<?xml?><osmChange/>", "<?xml version=\"1.\"?><osmChange/>", "<?xml version=\"2.0\"?><osmChange/>"],
    );
    only_rust(
        "`xml` as a target, in any case, elsewhere than at the beginning",
        &["<?XML?><osmChange/>", " <?xml version=\"1.0\"?><osmChange/>"],
    );
    only_rust("an instruction whose target is no name", &["<?1?><osmChange/>", "<?a?b?><osmChange/>"]);
    only_rust("`--` in a comment", &["<!-- -- --><osmChange/>", "<!-----><osmChange/>"]);
    only_rust(
        "bytes that are no text inside a markup",
        &[
            "<!--\\xff--><osmChange/>",
            "<?a \\x01?><osmChange/>",
            "<osmChange a=\"\\x01\"/>",
            "<osmChange a=\"\\xef\\xbf\\xbf\"/>",
            "<osmChange></osmChange\\x0c>",
        ],
    );
    only_rust("an element's name that is none", &["<osmChange><1/></osmChange>", "<osmChange>< a/></osmChange>"]);
    only_rust("no white space before an attribute", &["<osmChange a=\"\"b=\"\"/>"]);
    only_rust("an attribute's name that is none", &["<osmChange 1=\"\"/>", "<osmChange a&b=\"\"/>"]);
    only_rust(
        "attributes not well formed, where the Rust does not look",
        &["<osmChange a/>", "<osmChange a=b/>", "<osmChange / a=\"\"/>"],
    );
    only_rust("an attribute twice, where the Rust does not look", &["<osmChange a=\"\" a=\"\"/>"]);
    only_rust("`<` in a value", &["<osmChange a=\"<\"/>"]);
    only_rust(
        "a reference that XML does not know, where the Rust does not look",
        &["<osmChange a=\"&\"/>", "<osmChange a=\"&b;\"/>", "<osmChange a=\"&#;\"/>"],
    );
    only_rust(
        "a reference to a character that XML excludes",
        &["<osmChange a=\"&#0;\"/>", "<osmChange a=\"&#x110000;\"/>"],
    );
    only_rust("the file ends inside its last markup", &["<osmChange></osmChange", "<osmChange/><"]);
    row("<osmChange a=\"\\{16369 b}\"/>", "refused\\t2\\t1\\t-\\n", "a line over 16,384 bytes");
}

/// What stands in an element that the Rust looks at, and that it takes all the same.
#[test]
fn only_the_rust_takes_in_elements() {
    let tag = |fields: &str| format!("<osmChange><modify><way id=\"1\"><tag {fields}/></way></modify></osmChange>");
    let refused = "refused\\t25\\t1\\t-\\n";
    let spaceless = "<osmChange><modify><way id=\"1\"version=\"2\"/></modify></osmChange>";
    row(spaceless, refused, "no white space before an attribute");
    for (fields, name) in [
        ("k=\"a\" v=\"<\"", "`<` in a value"),
        ("k=\"a\" v=\"b\" c", "attributes not well formed, where the Rust does not look"),
        ("k=\"a\" v=\"b\" k=\"c\"", "an attribute twice, where the Rust does not look"),
        ("k=\"a\" v=\"\\xef\\xbf\\xbf\"", "bytes that are no text inside a markup"),
        ("k=\"a\" v=\"b\" x=\"&\"", "a reference that XML does not know, where the Rust does not look"),
        ("k=\"a\" v=\"&#1;\"", "a reference to a character that XML excludes"),
        ("k=\"a\"v=\"b\"", "no white space before an attribute"),
        ("1=\"\" k=\"a\" v=\"b\"", "an attribute's name that is none"),
    ] {
        row(&tag(fields), refused, name);
    }
}

#[test]
fn only_the_port_takes() {
    let way =
        |fields: &str, inside: &str| format!("<osmChange><modify><way {fields}>{inside}</way></modify></osmChange>");
    let page = |meta: &str, rest: &str| format!("w\\t1\\t+\\t{meta}\\t{rest}\\n");
    let number = "a reference in a number or a timestamp";
    row(&way("id=\"&#49;\"", ""), &page("?\\t0\\t0\\t0\\t0\\t0\\t", "0\\t0"), number);
    row(&way("id=\"1\" version=\"&#49;\"", ""), &page("1\\t9\\t1\\t0\\t0\\t0\\t", "0\\t0"), number);
    row(&way("id=\"1\"", "<nd ref=\"&#49;\"/>"), &page("?\\t0\\t0\\t0\\t0\\t0\\t", "1\\t1\\t0"), number);
    let long = "a reference of more than seven decimal or six hexadecimal digits";
    for reference in ["&#00000065;", "&#x0000041;"] {
        let tagged = way("id=\"1\"", &format!("<tag k=\"a\" v=\"{reference}\"/>"));
        row(&tagged, &page("?\\t0\\t0\\t0\\t0\\t0\\t", "0\\t1\\ta\\tA"), long);
    }
    row("<?a >?><osmChange/>", "", "`>` inside of an instruction");
    row(
        "<osmChange><modify><node id=\"1\" lat7=\"1\" lon7=\"1\"/></modify></osmChange>",
        "n\\t1\\t+\\t?\\t0\\t0\\t0\\t0\\t0\\t\\t1\\t1\\t0\\n",
        "lat7 and lon7",
    );
}

#[test]
fn read_differently() {
    let file = "<osmChange><modify><way id=\"1\" visible=\"f&#97;lse\"/></modify></osmChange>";
    row(file, "w\\t1\\t+\\t?\\t3\\t0\\t0\\t0\\t0\\t\\t0\\t0\\n", "a reference in `visible`");
    assert_eq!(rust::listing_of(file.as_bytes()).expect("taken"), b"w\t1\t+\t?\t1\t0\t0\t0\t0\t\t0\t0\n");
}
