//! Every edit of the faults applies, and one that doesn't is refused. (That each
//! compiles and is noticed is what `make faults` tries.)

use std::path::Path;

use apply::edit::Edit;
use apply::files::{edited, read_files, Files};

fn independent() -> &'static Path {
    Path::new(env!("CARGO_MANIFEST_DIR")).parent().unwrap()
}

#[test]
fn every_edit_applies() {
    let model = read_files(&independent().join("model/src")).unwrap();
    let texts = read_files(&independent().join("faults")).unwrap();
    assert!(texts.len() >= 324, "{} edits", texts.len());
    for (path, text) in &texts {
        let copy = Edit::read(text).and_then(|edit| edited(&model, &edit));
        assert!(copy.is_ok_and(|copy| copy != model), "{}", path.display());
    }
}

const HEAD: &str = "wrong: a test\nrule: none\nfile: a.rs\n";

/// The text of a.rs after an edit with these changes.
fn try_edit(text: &str, changes: &str) -> Result<String, String> {
    let files = Files::from([("a.rs".into(), text.to_string())]);
    let edit = Edit::read(&format!("{HEAD}{changes}"))?;
    let mut files = edited(&files, &edit)?;
    Ok(files.remove(Path::new("a.rs")).unwrap())
}

#[test]
fn lines_are_replaced() {
    let text = "one\n    two\nthree\n";
    assert_eq!(try_edit(text, "- two\n+ 2\n").unwrap(), "one\n2\nthree\n");
    assert_eq!(try_edit(text, "- two\n- three\n").unwrap(), "one\n");
    let both = "- one\n\n- three\n+ 3\n+ 4\n";
    assert_eq!(try_edit(text, both).unwrap(), "    two\n3\n4\n");
}

#[test]
fn wrong_edits_are_refused() {
    let text = "one\ntwo\none\n";
    // Not there, there twice, the same again, and in no file that there is.
    for changes in [
        "- three\n+ 3\n",
        "- one\n+ 1\n",
        "- two\n+ two\n",
        "- two\n- two\n",
        "file: b.rs\n- two\n",
        "- two\n+ 2\n- one\n",
        "+ 2\n",
        "two\n",
        "",
    ] {
        assert!(try_edit(text, changes).is_err(), "{changes:?}");
    }
    assert!(Edit::read("wrong: a test\nfile: a.rs\n- two\n").is_err());
    assert!(Edit::read("rule: none\nfile: a.rs\n- two\n").is_err());
    assert!(Edit::read("wrong: a\nrule: b\n- two\n").is_err());
}
