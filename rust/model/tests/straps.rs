//! "Straps", against the table as it is printed in source document 003.

use model::{address_of, pins_of};

/// Table 5 of 003, copied line by line: AD3, AD2, AD1, AD0, address.
const TABLE_5: &str = include_str!("table5.txt");

fn pin_code(name: &str) -> u8 {
    match name {
        "VSS" => 0,
        "VDD" => 1,
        "PD" => 2,
        "PU" => 3,
        other => panic!("no such pin connection: {other}"),
    }
}

fn table_5() -> Vec<([u8; 4], u8)> {
    let line = |line: &str| {
        let words: Vec<&str> = line.split(' ').collect();
        let pins = [0, 1, 2, 3].map(|i: usize| pin_code(words[i]));
        (pins, u8::from_str_radix(words[4], 16).unwrap())
    };
    TABLE_5.lines().map(line).collect()
}

#[test]
fn every_strapping_agrees_with_table_5() {
    let table = table_5();
    assert_eq!(table.len(), 112);
    for code in 0..256u32 {
        let pins = [3, 2, 1, 0].map(|place| ((code >> (2 * place)) & 3) as u8);
        let listed = table.iter().find(|(p, _)| *p == pins).map(|(_, address)| *address);
        assert_eq!(address_of(pins), listed, "{pins:?}");
    }
}

#[test]
fn every_address_agrees_with_table_5() {
    let table = table_5();
    for address in 0..=255u8 {
        let listed: Vec<[u8; 4]> =
            table.iter().filter(|(_, a)| *a == address).map(|(p, _)| *p).collect();
        assert_eq!(pins_of(address).into_iter().collect::<Vec<_>>(), listed, "{address:02X}");
        assert_eq!(pins_of(address).is_some(), (0x08..=0x77).contains(&address));
    }
}

#[test]
fn pin_codes_above_three_are_refused() {
    for place in 0..4 {
        for code in 4..=255u8 {
            let mut pins = [0, 0, 2, 0];
            assert!(address_of(pins).is_some());
            pins[place] = code;
            assert_eq!(address_of(pins), None);
        }
    }
}
