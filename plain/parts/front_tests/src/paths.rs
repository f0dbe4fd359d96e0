//! Names of a volume and paths of a tree.

use rattle_host::alloc::Global;
use spiffs::tree_paths::{ASIDE, is_clash, name_of, path_of};

fn path(name: &[u8], is_aside: bool) -> std::string::String {
    path_of(Global, name, is_aside).expect("memory").as_str().into()
}

fn name(path: &str) -> std::vec::Vec<u8> {
    name_of(Global, path).expect("memory").as_slice().into()
}

fn aside(rest: &str) -> std::string::String {
    format!("{ASIDE}{rest}")
}

#[test]
fn names_of_a_tree_are_its_paths() {
    for row in ["a", "index.html", "css/site.css", "a/b/c/d", ".htaccess", "...", "..a/b..", "50%", "a%20b", "ein Wort", "grün/ö", "a\nb", "%2e%2e"] {
        assert_eq!(path(format!("/{row}").as_bytes(), false), row);
        assert_eq!(name(row), format!("/{row}").as_bytes());
    }
    let longest = "d/".repeat(14) + "ab";
    assert_eq!(longest.len(), 30);
    assert_eq!(path(format!("/{longest}").as_bytes(), false), longest);
}

#[test]
fn names_that_are_no_paths_of_a_tree_go_aside() {
    for (given, wanted) in [
        (b"a".as_slice(), "a"),
        (b"index.html", "index.html"),
        (b"/", "%2F"),
        (b"//", "%2F%2F"),
        (b"//a", "%2F%2Fa"),
        (b"/a/", "%2Fa%2F"),
        (b"/a//b", "%2Fa%2F%2Fb"),
        (b"/.", "%2F."),
        (b"/..", "%2F.."),
        (b"/../etc/passwd", "%2F..%2Fetc%2Fpasswd"),
        (b"/a/../../b", "%2Fa%2F..%2F..%2Fb"),
        (b"/a/.", "%2Fa%2F."),
        (b"..", "%2E."),
        (b"../up", "%2E.%2Fup"),
        (b".", "%2E"),
        (b".a", "%2Ea"),
        (b"a b%", "a%20b%25"),
        (b"/a\x00b", "%2Fa%00b"),
        (b"/\xFF", "%2F%FF"),
        (b"\x01", "%01"),
    ] {
        assert_eq!(path(given, false), aside(wanted));
        assert_eq!(name(&aside(wanted)), given);
    }
    assert_eq!(path(b"", false), aside("%"));
    assert_eq!(path(b"/a", true), aside("%2Fa"));
    assert_eq!(name(&aside("%2Fa")), b"/a");
    let long = b"/0123456789012345678901234567890";
    assert_eq!(long.len(), 32);
    assert_eq!(path(long, false), aside("%2F0123456789012345678901234567890"));
}

#[test]
fn the_folder_aside_is_no_path_of_a_tree() {
    let folder = ASIDE.trim_end_matches('/');
    assert!(folder.len() > 31);
    assert_eq!(name(folder), format!("/{folder}").as_bytes());
    assert!(name(&format!("{folder}s")).len() > 31);
}

// The next of drawn numbers.
fn draw(x: &mut u64) -> u64 {
    *x = x.wrapping_mul(6364136223846793005).wrapping_add(1442695040888963407);
    *x >> 33
}

// What a host does with a path below a folder: the names of the folders from that one on, or none where it leaves it.
fn arrives(path: &str) -> Option<std::vec::Vec<&str>> {
    if path.starts_with('/') {
        return None;
    }
    let mut here = std::vec::Vec::new();
    for part in path.split('/') {
        match part {
            "" | "." => {}
            ".." => {
                here.pop()?;
            }
            part => here.push(part),
        }
    }
    Some(here)
}

#[test]
fn drawn_names_stay_below_the_folder_and_are_found_again() {
    let bytes = b"/..//a.%2F0b\x00\xC3\xBC\xFF\n~";
    let mut x = 1;
    let mut seen = std::collections::HashMap::new();
    for _ in 0..40_000 {
        let count = 1 + draw(&mut x) as usize % 31;
        let mut drawn = std::vec::Vec::new();
        for _ in 0..count {
            drawn.push(bytes[draw(&mut x) as usize % bytes.len()]);
        }
        let is_aside = draw(&mut x) % 8 == 0;
        let path = path(&drawn, is_aside);
        let parts = arrives(&path).expect("below the folder");
        assert_eq!(parts.len(), path.split('/').count());
        assert!(!path.contains('\0'));
        assert_eq!(name(&path), drawn);
        assert_eq!(*seen.entry(path).or_insert(drawn.clone()), drawn);
    }
}

#[test]
fn a_file_and_a_folder_of_one_path_clash() {
    for (one, other, wanted) in [
        ("/a", "/a/b", true),
        ("/a/b", "/a", true),
        ("/a", "/a", false),
        ("/a", "/ab", false),
        ("/a", "/ab/c", false),
        ("/a/b", "/a/c", false),
        ("/a/b/c", "/a", true),
        ("", "/a", true),
    ] {
        assert_eq!(is_clash(one.as_bytes(), other.as_bytes()), wanted);
    }
}

// Puts names one after the other, each aside that clashes with an earlier one.
fn put_all(names: &[&str]) -> std::vec::Vec<std::string::String> {
    let mut paths = std::vec::Vec::new();
    for (i, name) in names.iter().enumerate() {
        let is_aside = names[..i].iter().any(|earlier| is_clash(name.as_bytes(), earlier.as_bytes()));
        paths.push(path(name.as_bytes(), is_aside));
    }
    paths
}

#[test]
fn of_names_that_clash_the_later_goes_aside() {
    assert_eq!(put_all(&["/a", "/a/b", "/c"]), ["a", aside("%2Fa%2Fb").as_str(), "c"]);
    assert_eq!(put_all(&["/a/b", "/c", "/a"]), ["a/b", "c", aside("%2Fa").as_str()]);
    let mut x = 7;
    let parts = ["/a", "/b", "/a/a", "a", "/", "/.."];
    for _ in 0..5_000 {
        let mut names = std::vec::Vec::new();
        for _ in 0..6 {
            let mut name = std::string::String::new();
            for _ in 0..=draw(&mut x) % 3 {
                name += parts[draw(&mut x) as usize % parts.len()];
            }
            if !names.contains(&name) {
                names.push(name);
            }
        }
        let names: std::vec::Vec<&str> = names.iter().map(|name| name.as_str()).collect();
        let paths = put_all(&names);
        for one in &paths {
            assert!(!paths.iter().any(|other| other.starts_with(&format!("{one}/"))));
        }
    }
}
