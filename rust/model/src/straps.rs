//! Pins to address and back. Document 01, "Straps".

/// The seven-bit address of a strapping given as AD3, AD2, AD1, AD0.
/// `None` is refusal 8: a pin code above 3, or a strapping not in the table.
pub fn address_of(pins: [u8; 4]) -> Option<u8> {
    if pins.iter().any(|&pin| pin > 3) {
        return None;
    }
    let [ad3, ad2, ad1, ad0] = pins;
    // "AD3 is always a tie."
    if is_resistor(ad3) {
        return None;
    }
    let first = first_of_eight(&class([ad2, ad1, ad0]), counts(ad3) == 1)?;
    // "AD2, AD1, AD0 give the low three address bits."
    Some(first + 4 * counts(ad2) + 2 * counts(ad1) + counts(ad0))
}

/// The strapping of an address. `None` is refusal 11.
/// All 256 strappings are tried, so this cannot differ from `address_of`.
pub fn pins_of(address: u8) -> Option<[u8; 4]> {
    (0..=255u8)
        .map(|code| [code >> 6, (code >> 4) & 3, (code >> 2) & 3, code & 3])
        .find(|&pins| address_of(pins) == Some(address))
}

/// "Pin codes: 0 VSS, 1 VDD, 2 pull-down, 3 pull-up."
fn is_resistor(pin: u8) -> bool {
    pin == 2 || pin == 3
}

/// "VSS and pull-down count 0, VDD and pull-up count 1."
fn counts(pin: u8) -> u8 {
    match pin {
        1 | 3 => 1,
        _ => 0,
    }
}

/// The class in the paper's letters, AD2 first: t a tie, r a resistor.
fn class(pins: [u8; 3]) -> String {
    pins.iter().map(|&pin| if is_resistor(pin) { 'r' } else { 't' }).collect()
}

/// The class table, row by row as it is printed.
fn first_of_eight(class: &str, ad3_is_vdd: bool) -> Option<u8> {
    let (with_vss, with_vdd) = match class {
        "ttt" => (Some(0x70), None),
        "ttr" => (None, Some(0x08)),
        "trt" => (Some(0x10), Some(0x18)),
        "trr" => (Some(0x20), Some(0x28)),
        "rtt" => (Some(0x30), Some(0x38)),
        "rtr" => (Some(0x40), Some(0x48)),
        "rrt" => (Some(0x50), Some(0x58)),
        "rrr" => (Some(0x60), Some(0x68)),
        _ => (None, None),
    };
    if ad3_is_vdd {
        with_vdd
    } else {
        with_vss
    }
}
