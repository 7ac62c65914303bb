//! Every crate, page, tool and statement is on the map, every link leads somewhere, and the picture is drawn from crates.txt. Each way in which it
//! could not be so is told in a sentence, seen here on a small repository.

use house::{
    house_picture, link_faults, map_faults, statement_faults, Tree, CONTRIBUTING, CRATES, HOUSE,
    INDEX, README,
};

#[test]
fn every_crate_page_and_statement_is_on_the_map() {
    let tree = Tree::of_this_repository();
    let found = [map_faults(&tree), statement_faults(&tree)].concat();
    assert!(found.is_empty(), "\n\n{}\n", found.join("\n"));
}

#[test]
fn every_link_leads_somewhere() {
    let found = link_faults(&Tree::of_this_repository());
    assert!(found.is_empty(), "\n\n{}\n", found.join("\n"));
}

const PAGE: &str = "docs/LAMP.md";

/// Three groups of crates, the third of which stands on both others, a tool, a part in Rust, samples and four pages.
fn small() -> Tree {
    let mut tree = Tree::default();
    tree.put(
        CRATES,
        "# How it is read.\n\n# Ground: what is lit.\nlamp:\n\n# Walls.\nwall: lamp\ndoor: lamp wall\n\n# Roof: all of it.\nroof: door lamp\n",
    );
    tree.put("crates/lamp/specs/Lamp.antt", "-- A lamp.\n");
    tree.put("tools/light", "");
    tree.put("rust/eye/Cargo.toml", "");
    tree.put("rust/eye/src/lib.rs", "");
    tree.put("samples/one.trace", "");
    tree.put(
        README,
        "# Lamps\n\nSee `docs/LAMP.md` and `docs/README.md`, and who changes it `CONTRIBUTING.md`.\n\n\
         | group | crates | what |\n|---|---|---|\n| Ground | `lamp` | light |\n| Walls | `wall` `door` | around it |\n| Roof | `roof` | above |\n\n\
         `tools/light` lights, `rust/eye/` sees, `samples/` has samples.\n",
    );
    tree.put(
        CONTRIBUTING,
        "# Changes\n\n| crate | what it has |\n|---|---|\n| `lamp` | light |\n| `wall`, `door` | walls |\n| `roof` | a roof |\n",
    );
    tree.put(INDEX, "# Pages\n\n| `LAMP.md` |\n");
    tree.put(PAGE, "# The lamp\n\n## How bright is it?\n\nBright: [see](#how-bright-is-it).\n");
    let picture = house_picture(&tree).expect("there is a list of crates");
    tree.put(HOUSE, &picture);
    tree
}

/// The one fault of the map that is told where a text stands in another's place.
fn map_fault_after(path: &str, old: &str, new: &str) -> String {
    let found = map_faults(&small().replaced(path, old, new));
    assert_eq!(found.len(), 1, "{found:#?}");
    found[0].clone()
}

#[test]
fn a_repository_in_order() {
    assert_eq!(map_faults(&small()), Vec::<String>::new());
    assert_eq!(link_faults(&small()), Vec::<String>::new());
}

#[test]
fn a_crate_that_is_not_in_its_group() {
    let expected =
        "README.md has not the crates of the group \"Walls\" as crates.txt has them: `wall` `door`.";
    for (old, new) in [("`wall` `door`", "`door`"), ("`wall` `door`", "`door` `wall`")] {
        assert_eq!(map_fault_after(README, old, new), expected);
    }
    assert_eq!(map_fault_after(README, "| Walls | `wall` `door` | around it |\n", ""), expected);
    let told = map_fault_after(README, "| Roof |", "| Cellar | `cellar` | below |\n| Roof |");
    assert_eq!(told, "README.md has a row for the group \"Cellar\", which crates.txt has not.");
}

#[test]
fn a_crate_without_a_row_of_its_own() {
    let told = map_fault_after(CONTRIBUTING, "| `roof` | a roof |\n", "");
    assert_eq!(told, "CONTRIBUTING.md has not one row for the crate `roof`.");
    let told = map_fault_after(CONTRIBUTING, "| `roof` |", "| `roof`, `roof` |");
    assert_eq!(told, "CONTRIBUTING.md has not one row for the crate `roof`.");
    let told = map_fault_after(CONTRIBUTING, "| `roof` |", "| `roof`, `cellar` |");
    assert_eq!(told, "CONTRIBUTING.md has a row for the crate `cellar`, which crates.txt has not.");
}

#[test]
fn a_page_tool_or_folder_that_is_not_on_the_map() {
    for (name, text) in [
        ("docs/LAMP.md", "`docs/LAMP.md` and "),
        ("docs/README.md", " and `docs/README.md`"),
        ("CONTRIBUTING.md", "`CONTRIBUTING.md`"),
        ("tools/light", "`tools/light`"),
        ("rust/eye/", "`rust/eye/`"),
        ("samples/", "`samples/`"),
    ] {
        let told = map_fault_after(README, text, "");
        assert_eq!(told, format!("README.md does not name `{name}`."));
    }
    let told = map_fault_after(INDEX, "`LAMP.md`", "the lamp");
    assert_eq!(told, "docs/README.md does not name `LAMP.md`.");
}

/// A line may say of what kind a crate is, which is no part of its name.
#[test]
fn a_crate_of_another_kind() {
    let tree = small().replaced(CRATES, "roof: door lamp", "roof staticlib: door lamp");
    assert_eq!(map_faults(&tree), Vec::<String>::new());
}

#[test]
fn a_picture_of_other_crates() {
    let told = map_fault_after(CRATES, "roof: door lamp", "roof: door wall");
    assert!(told.starts_with("docs/pictures/house.svg is not what crates.txt gives;"), "{told}");
    let mut tree = small();
    tree.remove(HOUSE);
    assert_eq!(map_faults(&tree).len(), 1);
}

/// How many boxes and arrows the picture of these crates has, and whether it has these words.
fn drawn(crates: &str, words: &[&str]) -> (usize, usize, bool) {
    let mut tree = Tree::default();
    tree.put(CRATES, crates);
    let picture = house_picture(&tree).expect("there is a list of crates");
    let boxes = picture.matches("<rect x=").count();
    let arrows = picture.matches("<path fill=\"none\"").count();
    (boxes, arrows, words.iter().all(|word| picture.contains(&format!(">{word}</text>"))))
}

#[test]
fn the_picture_leaves_out_what_follows() {
    let small = small();
    let crates = small.text(CRATES).expect("there is a list of crates");
    // Roof stands on Ground too, by Walls.
    let words = ["Ground", "what is lit", "lamp", "Walls", "wall  door", "Roof", "roof"];
    assert_eq!(drawn(crates, &words), (3, 2, true));
    assert_eq!(drawn(crates, &["Cellar"]), (3, 2, false));
    assert_eq!(drawn(&crates.replace("roof: door lamp", "roof: lamp"), &words), (3, 2, true));
    assert_eq!(drawn(&crates.replace("roof: door lamp", "roof:"), &words), (3, 1, true));
    // Two groups that stand on each other stand on one floor, with an arrow each way.
    assert_eq!(drawn(&crates.replace("wall: lamp", "wall: lamp roof"), &words), (3, 4, true));
}

/// What is told of links where a line stands on the page of the lamp.
fn links_after(line: &str) -> Vec<String> {
    let mut tree = small();
    tree.put(PAGE, &format!("# The lamp\n\n{line}\n"));
    link_faults(&tree)
}

#[test]
fn a_link_to_what_is_there() {
    for line in [
        "[a](README.md) and [b](../README.md#lamps), [c](#the-lamp), [d](../samples), [e](https://example.org/x)",
        "`docs/LAMP.md`, `LAMP.md`, `../README.md`, `lamp/specs/Lamp.antt`, `tools/light`, `samples/`, `one.trace`",
        "`rust/eye/src/lib.rs` with `Cargo.toml`, `src/`, `specs/Lamp.antt`",
        "`lamp/specs/Lamp`; `lamp/specs/`: `Lamp`, `lit`; `Lit`",
        "`crates/X/specs/`, `NAME.trace`, `build/lib`, `lamp/bright`, `--csv`, `a b.md`, `lamp::lit`, `night/*.trace`",
        "```\n`docs/GONE.md`\n```",
        "    cat `docs/GONE.md`",
    ] {
        assert_eq!(links_after(line), Vec::<String>::new(), "{line}");
    }
}

#[test]
fn a_link_to_what_is_not_there() {
    for target in ["GONE.md", "../docs/GONE.md", "#the-eye", "../README.md#eyes", "../../README.md"]
    {
        let told = links_after(&format!("[x]({target})"));
        assert_eq!(told, [format!("docs/LAMP.md, line 3: the link to {target} leads nowhere.")]);
    }
    for path in [
        "docs/GONE.md",
        "GONE.md",
        "lamp/specs/Eye.antt",
        "tools/dim",
        "rust/nose/",
        "two.trace",
        "specs/Eye.antt",
    ] {
        let told = links_after(&format!("So says `{path}`."));
        assert_eq!(told, [format!("docs/LAMP.md, line 3: there is no `{path}`.")]);
    }
    for line in ["`lamp/specs/Eye`", "`lamp/specs/`: `Lamp`, `Eye`; `Eye`"] {
        assert_eq!(links_after(line), ["docs/LAMP.md, line 3: there is no `lamp/specs/Eye`."]);
    }
}
