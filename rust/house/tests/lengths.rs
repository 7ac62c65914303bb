//! No function of the Rust files is longer than a page of a screen; no line of a proof is too wide, and no file of Rattle too long.

use house::{long_files, long_functions, wide_lines, Tree, LONGEST, LONGEST_FILE, WIDEST};

#[test]
fn every_function_is_short() {
    let found = long_functions(&Tree::of_this_repository());
    assert!(found.is_empty(), "\n\n{}\n", found.join("\n"));
}

#[test]
fn proofs_and_files_of_rattle_can_be_read() {
    let tree = Tree::of_this_repository();
    let found = [wide_lines(&tree), long_files(&tree)].concat();
    assert!(found.is_empty(), "\n\n{}\n", found.join("\n"));
}

/// A character is one, however many bytes it takes.
#[test]
fn one_character_and_one_line_too_many_are_told() {
    let mut tree = Tree::default();
    tree.put("crates/bus/proofs/Laws.antt", &format!("{}\n", "λ".repeat(WIDEST)));
    tree.put("crates/bus/src/lib.rt", &"\n".repeat(LONGEST_FILE));
    assert!(wide_lines(&tree).is_empty() && long_files(&tree).is_empty());
    tree.put("crates/bus/proofs/Laws.antt", &format!("\n{}\n", "λ".repeat(WIDEST + 1)));
    tree.put("crates/bus/src/lib.rt", &"\n".repeat(LONGEST_FILE + 1));
    let wide = "crates/bus/proofs/Laws.antt, line 2: 161 characters; 160 are the most.";
    assert_eq!(wide_lines(&tree), [wide]);
    assert_eq!(long_files(&tree), ["crates/bus/src/lib.rt has 301 lines; 300 are the most."]);
}

/// What is told of a file with this text.
fn told(text: &str) -> Vec<String> {
    let mut tree = Tree::default();
    tree.put("rust/bus/src/lib.rs", text);
    long_functions(&tree)
}

/// A function of so many lines.
fn function(name: &str, lines: usize) -> String {
    format!("pub fn {name}(bytes: [u8; 4]) -> u8 {{\n{}}}\n", "    step();\n".repeat(lines - 2))
}

#[test]
fn one_line_too_many_is_told() {
    assert!(told(&function("short", LONGEST)).is_empty());
    let two = format!("{}\n{}", function("short", LONGEST), function("long", LONGEST + 1));
    assert_eq!(told(&two), ["rust/bus/src/lib.rs, line 42: `long` has 41 lines; 40 are the most."]);
}

/// A test, a method and a function in a function are functions too.
#[test]
fn functions_of_every_place() {
    let long = function("long", LONGEST + 1);
    assert_eq!(told(&format!("mod tests {{\n#[test]\n{long}}}\n")).len(), 1);
    assert_eq!(told(&format!("impl Bus {{\n{long}}}\n")).len(), 1);
    assert_eq!(told(&format!("fn outer() {{\n{long}}}\n")).len(), 2);
}

/// A promise of a trait has no body; braces in strings, characters and comments end none.
#[test]
fn what_looks_like_a_function() {
    let lines = "\n".repeat(LONGEST);
    assert!(told(&format!("trait Bus {{\n    fn step();\n{lines}}}\n")).is_empty());
    assert!(told(&format!("struct Bus {{\n    run: fn(u8) -> u8,\n{lines}}}\n")).is_empty());
    assert!(told(&format!("// fn long() {{\n{lines}// }}\n")).is_empty());
    for brace in ["\"}\"", "'}'", "r#\"\"}\"#", "/* } */ 1"] {
        let text = format!("fn long() {{\n    let end = {brace};\n{lines}}}\n");
        assert_eq!(told(&text).len(), 1, "{brace}");
    }
}
