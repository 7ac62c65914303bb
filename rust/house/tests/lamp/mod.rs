//! A small repository in order, on which the tests of contracts, edits and their page see each fault told.

// Each file of tests uses some of it.
#![allow(dead_code)]

use house::{faults, promises_page, Tree, LIST, TEMPLATE};

pub const SOURCE: &str = "crates/lamp/src/lib.rt";
pub const SAY: &str = "crates/show/src/words.rt";
pub const LIGHT: &str = "crates/lamp/specs/Light.antt";
pub const UNIQUE: &str = "crates/lamp/proofs/Unique.antt";
pub const TRIED: &str = "crates/lamp/tried/always_lit.edit";
pub const GATE: &str = "crates/lamp/must-fail/never_lit.edit";
pub const RULE: &str = "crates/lamp/tried/lit_when_off.edit";

/// A crate with two calls and a private function, and a program.
fn put_code(tree: &mut Tree) {
    tree.put(
        "crates.txt",
        "# What this file is.\n\n# Lamps: one alone.\nlamp:\n\n# Programs.\nshow: lamp\n",
    );
    let source = "ghost use Rattle.std.specs.Prelude.{◌≡◌};\n\
                  ghost use Rattle.lamp.specs.Light.{lit, off};\n\
                  ghost use Rattle.lamp.specs.declared.Lamp.{on};\n\n\
                  pub fn is_lit(on: bool) -> bool\n    ensures { result ≡ lit on }\n{\n    on\n}\n\n\
                  pub fn glows(\n    off: bool,\n) -> bool\n    ensures { result ≡ now off.lit }\n{\n    (off)\n}\n\n\
                  fn rest(on: bool) -> bool\n    requires { on }\n{\n    on\n}\n";
    tree.put(SOURCE, source);
    tree.put(LIGHT, "abbrev pub lit : Bool → Bool\nlit on = on\n\npub off : Bool\n");
    tree.put("crates/lamp/proofs/Light.antt", "pub all_lit : AllLit\n");
    tree.put(UNIQUE, "pub is_lit_once : OneResult\n\npub glows_once : OneResult\n");
    tree.put("crates/show/src/main.rt", "mod words;\n\nfn main() {\n}\n");
    tree.put(SAY, "pub fn say() {\n}\n");
}

/// The edits: one of a definition, two of the code beside the five devices.
fn put_edits(tree: &mut Tree) {
    let code = "file: src/lib.rt\nold:     (off)\nnew:     ";
    tree.put(GATE, &format!("# call: lamp::glows, lamp::is_lit\n# wrong: dark\n{code}false\n"));
    tree.put(
        TRIED,
        &format!("# call: lamp::is_lit\n# wrong: light\n# refused: is_lit returns, Light all_lit\n{code}(true)\nold: (true)\nnew: true\n"),
    );
    tree.put(RULE, "# wrong: lit when off\n# refused: Light all_lit\nfile: specs/Light.antt\nold: lit on = on\nnew: lit on = off\n");
    for (number, name) in ["one", "two", "three", "four", "five"].into_iter().enumerate() {
        tree.put(
            &format!("crates/lamp/must-fail/{name}.edit"),
            &format!("# call: lamp::glows\n# device: {} is {name}\n# wrong: wrong {name}\n# refused: glows\n{code}{number}\n", number + 1),
        );
    }
}

pub fn small() -> Tree {
    let mut tree = Tree::default();
    put_code(&mut tree);
    put_edits(&mut tree);
    tree.put(
        TEMPLATE,
        "# Promises\n\n{devices}\n\n{rules}\n\n{calls}\n\n## Exceptions\n\n| call | grounds | edits |\n|---|---|---|\n\
         | `show::main` | a program | {edits} |\n| `show::words::say` | no result | {edits} |\n",
    );
    let page = promises_page(&tree);
    tree.put(LIST, &page);
    tree
}

/// The one fault that is left where a text stands in another's place.
pub fn fault_after(path: &str, old: &str, new: &str) -> String {
    only_fault(&small().replaced(path, old, new))
}

pub fn only_fault(tree: &Tree) -> String {
    let found = faults(tree);
    assert_eq!(found.len(), 1, "{found:#?}");
    found[0].clone()
}
