//! The kept page is made from what is here: it carries the digest of its sources, and that is computed anew. `tools/page` makes it, and
//! `tools/page --digest` prints the same digest.

mod common;

use std::collections::BTreeMap;
use std::path::Path;
use std::process::Command;

use common::{at_root, file, files};
use gunwaleish_page::samples::FILES;
use gunwaleish_tool::sha256;

const PAGE: &str = "gunwaleish.html";

/// Every file that the page is made from, with its SHA-256, by its name.
fn sources() -> BTreeMap<String, String> {
    let mut names: Vec<String> = [
        "crates.txt",
        "tools/page",
        "rust/Cargo.toml",
        "rust/Cargo.lock",
        "rust/gunwaleish/build.rs",
    ]
    .map(String::from)
    .into();
    for entry in std::fs::read_dir("crates").unwrap() {
        let folder = format!("crates/{}/src", entry.unwrap().file_name().to_str().unwrap());
        if Path::new(&folder).is_dir() {
            names.extend(files(&folder, ""));
        }
    }
    for name in ["gunwaleish", "tool", "page"] {
        names.push(format!("rust/{name}/Cargo.toml"));
        names.extend(files(&format!("rust/{name}/src"), ""));
    }
    let own = |name: &String| {
        [".html", ".css", ".js", ".txt"].iter().any(|ending| name.ends_with(ending))
    };
    let at_top = |name: &String| name.matches('/').count() == 1;
    if Path::new("page").is_dir() {
        names.extend(files("page", "").into_iter().filter(own).filter(at_top));
    }
    names.extend(FILES.iter().map(|(name, _)| name.to_string()));
    names.into_iter().map(|name| (name.clone(), sha256::of(&file(&name)))).collect()
}

fn digest() -> String {
    let lines: String = sources().iter().map(|(name, hash)| format!("{hash}  {name}\n")).collect();
    sha256::of(lines.as_bytes())
}

#[test]
fn the_page_is_made_from_this() {
    let root = at_root();
    assert!(root.join(PAGE).is_file(), "{PAGE} is not there; tools/page makes it");
    let page = String::from_utf8(file(PAGE)).unwrap();
    let wanted = format!("<meta name=\"made-from\" content=\"{}\">", digest());
    assert!(
        page.contains(&wanted),
        "{PAGE} is stale: it was made from something else than is here; tools/page makes it anew"
    );
}

/// The tool that makes the page has the same digest.
#[test]
fn the_digest_is_the_tools() {
    at_root();
    match Command::new("tools/page").arg("--digest").output() {
        Err(error) => println!("tools/page cannot be run ({error}), so its digest is not compared"),
        Ok(said) => assert_eq!(String::from_utf8_lossy(&said.stdout).trim(), digest()),
    }
}

/// The policy that a page gives itself.
fn policy(page: &str) -> &str {
    let after = page.split("http-equiv=\"Content-Security-Policy\" content=\"").nth(1);
    after.expect("a policy").split('"').next().unwrap()
}

/// True of a word of a policy that names a kind of thing, such as `img-src`.
fn is_kind(word: &str) -> bool {
    ["-src", "-uri", "-action"].iter().any(|end| word.ends_with(end))
}

/// One file that refers to nothing outside it, and may not.
#[test]
fn nothing_from_outside() {
    let root = at_root();
    if !root.join(PAGE).is_file() {
        return;
    }
    let page = String::from_utf8(file(PAGE)).unwrap();
    assert!(page.len() <= 500_000, "{} bytes", page.len());
    let policy = policy(&page);
    assert!(policy.starts_with("default-src 'none';"), "{policy}");
    let allowed = ["'none'", "'unsafe-inline'", "'wasm-unsafe-eval'", "data:", "blob:"];
    for word in policy.split([' ', ';']).filter(|word| !word.is_empty() && !is_kind(word)) {
        assert!(allowed.contains(&word) || word.starts_with("'sha256-"), "{word} in {policy}");
    }
    let code =
        page.split("<script>").nth(1).expect("the script").split("</script>").next().unwrap();
    assert_eq!(page.matches("<script").count(), 2, "the module and the script");
    assert!(
        policy.contains(&format!("'sha256-{}'", base64(&sha256::of(code.as_bytes())))),
        "the script's own hash is in {policy}"
    );
    let urls = ["src=\"http", "href=\"http", "url(http", "@import"];
    let calls = ["fetch(", "XMLHttpRequest", "WebSocket"];
    for from in urls.into_iter().chain(calls) {
        assert!(!page.contains(from), "{from}");
    }
}

/// Hex digits as base64.
fn base64(hex: &str) -> String {
    const LETTERS: &[u8; 64] = b"ABCDEFGHIJKLMNOPQRSTUVWXYZabcdefghijklmnopqrstuvwxyz0123456789+/";
    let bytes: Vec<u8> = (0..hex.len() / 2)
        .map(|at| u8::from_str_radix(&hex[2 * at..2 * at + 2], 16).unwrap())
        .collect();
    let letters = |three: &[u8]| {
        let byte = |place| u32::from(*three.get(place).unwrap_or(&0));
        let word = byte(0) << 16 | byte(1) << 8 | byte(2);
        let letter = |place: usize| {
            if place <= three.len() {
                LETTERS[(word >> (18 - 6 * place) & 63) as usize] as char
            } else {
                '='
            }
        };
        [0, 1, 2, 3].map(letter)
    };
    bytes.chunks(3).flat_map(letters).collect()
}
