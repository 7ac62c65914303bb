//! What an edit has to have: it fits its file, and tells its call, its wrong answer and where it is refused. Each fault is told in a sentence, seen
//! on a small repository.

mod lamp;

use house::{faults, promises_page, LIST};
use lamp::{fault_after, only_fault, small, GATE, RULE, SOURCE, TRIED};

#[test]
fn a_call_with_one_wrong_answer() {
    let told = fault_after(GATE, ", lamp::is_lit", "");
    let expected = "`lamp::is_lit` has fewer than 2 wrong answers, each an edit with the note `# call: lamp::is_lit`: 1.";
    assert_eq!(told, expected);
    let mut tree = small();
    tree.remove(TRIED);
    assert_eq!(only_fault(&tree), expected);
}

#[test]
fn an_edit_that_stands_twice() {
    let mut tree = small();
    let text = tree.text(TRIED).expect("an edit").to_string();
    tree.put("crates/lamp/must-fail/always_lit.edit", &text);
    assert!(faults(&tree)[0].starts_with("The edit `lamp/always_lit` stands twice: "));
}

#[test]
fn an_edit_that_does_not_fit_its_file() {
    let told = fault_after(TRIED, "old:     (off)", "old: (on)");
    assert_eq!(
        told,
        format!("{TRIED}: its old text `(on)` occurs 0 times in {SOURCE}, and has to occur once.")
    );
    let told = fault_after(TRIED, "old:     (off)", "old: pub fn");
    assert!(told.contains("its old text `pub fn` occurs 2 times"), "{told}");
    let told = fault_after(TRIED, "file: src/lib.rt", "file: src/main.rt");
    assert_eq!(told, format!("{TRIED}: there is no crates/lamp/src/main.rt."));
    let told = fault_after(GATE, "new:     false", "new:     (off)");
    assert_eq!(told, format!("{GATE}: its old and its new text are the same."));
    let told = fault_after(GATE, "new:     false", "");
    assert_eq!(told, format!("{GATE}: it has no old and new text."));
}

#[test]
fn an_edit_that_does_not_tell_its_call_or_its_wrong_answer() {
    let told = fault_after(TRIED, "# wrong: light\n", "");
    assert_eq!(told, format!("{TRIED}: no note `# wrong:` tells its wrong answer."));
    let told = fault_after(TRIED, "# wrong: light", &format!("# wrong:{}", " light".repeat(16)));
    assert_eq!(told, format!("{TRIED}: its wrong answer has 16 words, and is to have 15 at most."));
    let told = fault_after(TRIED, "# wrong: light", "# wrong: light\n# wrong: bright");
    assert_eq!(told, format!("{TRIED}: it has the note `# wrong:` twice."));
    let told = fault_after(RULE, "# wrong: lit", "# calls: lamp::is_lit\n# wrong: lit");
    assert_eq!(told, format!("{RULE}: its note `# calls:` is none that is read."));
    let told = fault_after(TRIED, "# call: lamp::is_lit", "# call: lamp::is_lit, lamp::rest");
    assert_eq!(
        told,
        format!("{TRIED}: it names the call `lamp::rest`, and no crate has such a public call.")
    );
    let found = faults(&small().replaced(TRIED, "# call: lamp::is_lit\n", ""));
    let expected = format!(
        "{TRIED}: it touches src/, and no note `# call:` names the public call that answers wrong."
    );
    assert_eq!(found[1..], [expected], "{found:?}");
}

#[test]
fn an_edit_refused_at_a_place_that_is_not_there() {
    let told = |place: &str| {
        format!("{RULE}: it is said to be refused at `{place}`, and its crate has no such place.")
    };
    for place in ["Dark all_lit", "Light all_dark", "dims returns"] {
        assert_eq!(fault_after(RULE, "Light all_lit", place), told(place));
    }
    let mut tree = small().replaced(RULE, "Light all_lit", "rest returns-2");
    let page = promises_page(&tree);
    tree.put(LIST, &page);
    assert_eq!(faults(&tree), Vec::<String>::new());
}

#[test]
fn a_wrong_device_that_the_gate_does_not_try() {
    const FIVE: &str = "crates/lamp/must-fail/five.edit";
    let mut tree = small();
    let text = tree.text(FIVE).expect("an edit").to_string();
    tree.remove(FIVE);
    assert_eq!(only_fault(&tree), "No edit has the note `# device: 5 ...`.");
    tree.put("crates/lamp/tried/five.edit", &text);
    let expected = "The gate is to try the edit `lamp/five`, a device that must not pass, and it stands in tried/, which the gate leaves out.";
    assert_eq!(only_fault(&tree), expected);
    let told = fault_after(TRIED, "# wrong:", "# device: 6 is bright\n# wrong:");
    assert_eq!(told, "There are 5 wrong devices, and 6 edits have the note `# device:`.");
    let found = faults(&small().replaced(FIVE, "# device: 5 ", "# device: 4 "));
    let expected = [
        "More than one edit has the note `# device: 4 ...`.",
        "No edit has the note `# device: 5 ...`.",
    ];
    assert_eq!(found, expected);
}
