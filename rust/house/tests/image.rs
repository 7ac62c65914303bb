//! The page of the image agrees with its definition, and what differs is told.

use house::{image_faults, Tree, LAYOUT, PAGE};

#[test]
fn the_page_agrees_with_the_definition() {
    let found = image_faults(&Tree::of_this_repository());
    assert!(found.is_empty(), "\n\n{}\n", found.join("\n"));
}

/// What is told where one text of a file is replaced by another.
fn told(path: &str, old: &str, new: &str) -> Vec<String> {
    let mut tree = Tree::of_this_repository();
    let text = tree.text(path).expect("the file is there").to_string();
    assert!(text.contains(old), "{path} has no {old}");
    tree.put(path, &text.replacen(old, new, 1));
    image_faults(&tree)
}

#[test]
fn another_range_on_the_page_is_told() {
    assert_eq!(told(PAGE, "| 0 to 35 |", "| 0 to 36 |").len(), 1);
    assert_eq!(told(PAGE, "or to 151 for", "or to 150 for").len(), 1);
    assert_eq!(told(PAGE, "| bit 1 clear |", "| 0 to 255 |").len(), 1);
}

#[test]
fn another_range_in_the_definition_is_told() {
    assert_eq!(told(LAYOUT, ".lowsda) up_to 501", ".lowsda) up_to 500").len(), 1);
    assert_eq!(told(LAYOUT, "image_length = 38", "image_length = 39").len(), 1);
}

#[test]
fn another_order_is_told() {
    assert_eq!(told(PAGE, "| `bus.outscl` |", "| `bus.outsda` |").len(), 1);
    assert_eq!(told(PAGE, "| 14 | 1 |", "| 14 | 2 |").len(), 1);
    assert!(
        told(
            LAYOUT,
            "laid_out (registers Zero) d ++ laid_out (registers One) d",
            "laid_out (registers One) d ++ laid_out (registers Zero) d"
        )
        .len()
            > 1
    );
}
