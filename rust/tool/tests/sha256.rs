//! SHA-256 against the examples of FIPS 180-4, at every length around a block's, and against `sha256sum` where that is installed.

use std::io::Write;
use std::process::{Command, Stdio};

use gunwaleish_tool::sha256::{hex, of, Sha256};

/// What the standard and its examples give. The last is a million times the letter a.
#[test]
fn the_examples_of_the_standard() {
    let two = b"abcdbcdecdefdefgefghfghighijhijkijkljklmklmnlmnomnopnopq";
    let four = b"abcdefghbcdefghicdefghijdefghijkefghijklfghijklmghijklmnhijklmnoijklmnopjklmnopqklmnopqrlmnopqrsmnopqrstnopqrstu";
    let million = vec![b'a'; 1_000_000];
    let examples: [(&[u8], &str); 5] = [
        (b"", "e3b0c44298fc1c149afbf4c8996fb92427ae41e4649b934ca495991b7852b855"),
        (b"abc", "ba7816bf8f01cfea414140de5dae2223b00361a396177a9cb410ff61f20015ad"),
        (two, "248d6a61d20638b8e5c026930c3e6039a33ce45964ff2167f6ecedd419db06c1"),
        (four, "cf5b16a778af8380036ce59e7b0492370b249b11e8f07a51afac45037afee9d1"),
        (&million, "cdc76e5c9914fb9281a1c7e284d73e67f1809a48a497200e046d39ccc7112cd0"),
    ];
    for (bytes, hash) in examples {
        assert_eq!(of(bytes), hash, "{} bytes", bytes.len());
    }
}

/// Bytes of which no two blocks are alike.
fn bytes(length: usize) -> Vec<u8> {
    (0..length).map(|place| (place * 7 + place / 64) as u8).collect()
}

/// However the bytes are cut into pieces, the hash is the same.
#[test]
fn pieces_make_no_difference() {
    for length in [0, 1, 55, 56, 63, 64, 65, 119, 120, 127, 128, 129, 1000] {
        let bytes = bytes(length);
        for piece in [1, 3, 55, 63, 64, 65, 128, 999] {
            let mut hash = Sha256::new();
            bytes.chunks(piece).for_each(|piece| hash.update(piece));
            assert_eq!(hex(&hash.finish()), of(&bytes), "{length} bytes in pieces of {piece}");
        }
    }
}

/// What `sha256sum` says of these bytes; `None` where it is not installed.
fn sha256sum(bytes: &[u8]) -> Option<String> {
    let asked = Command::new("sha256sum").stdin(Stdio::piped()).stdout(Stdio::piped()).spawn();
    let mut asked = asked.ok()?;
    asked.stdin.take().unwrap().write_all(bytes).unwrap();
    let said = String::from_utf8(asked.wait_with_output().unwrap().stdout).unwrap();
    Some(said.split(' ').next().unwrap().to_string())
}

/// Two blocks and more: at each length another number of zeros comes before the length.
#[test]
fn every_length_up_to_two_blocks_as_sha256sum_has_it() {
    if sha256sum(b"").is_none() {
        eprintln!("sha256sum is not installed: not compared");
        return;
    }
    for length in (0..=130).chain([4095, 4096, 100_003]) {
        let bytes = bytes(length);
        assert_eq!(Some(of(&bytes)), sha256sum(&bytes), "{length} bytes");
    }
}
