//! The name that a mistyped one is nearest to.

use crate::sheet::BoxName;

/// The boxes with the fewest letters to be added, taken away or changed, several if they have equally
/// few. None if that is more than half of them.
pub fn nearest(name: &str) -> Vec<BoxName> {
    let far = |to: BoxName| distance(name, &to.to_string().to_ascii_lowercase());
    let all: Vec<(usize, BoxName)> = BoxName::all().map(|to| (far(to), to)).collect();
    let least = all.iter().map(|&(far, _)| far).min().unwrap_or_default();
    let close = |&(far, to): &(usize, BoxName)| {
        let half = name.chars().count().max(to.to_string().len()) / 2;
        (far == least && far <= half).then_some(to)
    };
    all.iter().filter_map(close).collect()
}

/// How many letters have to be added, taken away or changed to make one word of the other.
fn distance(one: &str, other: &str) -> usize {
    let other: Vec<char> = other.chars().collect();
    // To what was read of the first, from each beginning of the second.
    let mut row: Vec<usize> = (0..=other.len()).collect();
    for (place, letter) in one.chars().enumerate() {
        let mut diagonal = row[0];
        row[0] = place + 1;
        for (at, &against) in other.iter().enumerate() {
            let changed = diagonal + usize::from(letter != against);
            diagonal = row[at + 1];
            row[at + 1] = changed.min(row[at] + 1).min(diagonal + 1);
        }
    }
    row[other.len()]
}

#[cfg(test)]
mod tests {
    use super::distance;

    #[test]
    fn letters_apart() {
        let cases = [
            ("", "", 0),
            ("", "abc", 3),
            ("abc", "", 3),
            ("priority", "priority", 0),
            ("priorty", "priority", 1),
            ("prioirty", "priority", 2),
            ("kitten", "sitting", 3),
            ("controller 0", "controller 1", 1),
        ];
        for (one, other, apart) in cases {
            assert_eq!(
                (distance(one, other), distance(other, one)),
                (apart, apart),
                "{one} {other}"
            );
        }
    }
}
