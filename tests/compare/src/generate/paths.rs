//! Paths to look up, and what a plan says of them.

use super::plan::{Content, Group, Link, Plan, Target};
use super::write::File;

/// "/" and every path of up to `depth` components, shorter ones first. A path may pass a group again.
pub fn planned(plan: &Plan, depth: usize) -> Vec<Vec<u8>> {
    let mut paths = vec![b"/".to_vec()];
    let mut groups = vec![(0, Vec::new())];
    for _ in 0..depth {
        let mut lower = Vec::new();
        for (number, path) in groups {
            for link in links(plan, number) {
                let path = [&path, b"/".as_slice(), &link.name].concat();
                if let Target::Object(target) = link.target {
                    lower.push((target, path.clone()));
                }
                paths.push(path);
            }
        }
        groups = lower;
    }
    paths
}

fn group(plan: &Plan, number: usize) -> Option<&Group> {
    match &plan.objects[number].content {
        Content::Group(group) => Some(group),
        _ => None,
    }
}

fn links(plan: &Plan, number: usize) -> &[Link] {
    group(plan, number).map_or(&[], |group| &group.links)
}

/// Paths that differ from a sound one in a byte or a component: names that begin others or that others begin, names
/// just below and above, something beyond the last component, and forms that aren't paths.
pub fn beside(path: &[u8]) -> Vec<Vec<u8>> {
    let (&last, front) = path.split_last().expect("a path");
    let with = |end: &[u8]| [path, end].concat();
    let instead = |byte: u8| [front, &[byte]].concat();
    vec![
        front.to_vec(),
        instead(last.wrapping_sub(1)),
        instead(last.wrapping_add(1)),
        with(b"a"),
        with(b"\x01"),
        with(b"\0"),
        with(b"/"),
        with(b"/x"),
        with(b"/x/y"),
        with(b"/."),
        with(b"//x"),
        [b"/", path].concat(),
        path[1..].to_vec(),
    ]
}

/// So many bytes, a component over and over.
fn repeated(component: &[u8], length: usize) -> Vec<u8> {
    let whole = [b"/", component].concat();
    whole.iter().copied().cycle().take(length).collect()
}

/// Paths that give 14 in every file.
pub fn malformed() -> Vec<Vec<u8>> {
    let long = [b'n'; 256];
    let mut paths: Vec<Vec<u8>> = [
        b"".as_slice(),
        b"a",
        b"a/b",
        b".",
        b"\0",
        b"//",
        b"///",
        b"//a",
        b"/a/",
        b"/a//",
        b"/a//b",
        b"/.",
        b"/./a",
        b"/a/.",
        b"/a/./b",
        b"/\0",
        b"/a\0",
        b"/\0a",
        b"/a\0b",
        b"/a/b\0/c",
    ]
    .map(<[u8]>::to_vec)
    .to_vec();
    paths.push([b"/", long.as_slice()].concat());
    paths.push([b"/a/", long.as_slice()].concat());
    paths.push([b"/", long.as_slice(), b"/a"].concat());
    paths.push([repeated(&long[1..], 512), b"n".to_vec()].concat());
    paths.push(vec![b'/'; 1024]);
    // 1,024 bytes that end with '/', and sound components in over 1,024.
    paths.push(repeated(b"ab", 1024));
    paths.push([repeated(b"a", 1024), b"a".to_vec()].concat());
    paths.push(repeated(&long[1..], 1026));
    paths.push(repeated(b"a", 2000));
    paths.push(repeated(b"a", 65_536 + 2));
    paths
}

/// Paths near the malformed ones that are none of them.
pub fn well_formed() -> Vec<Vec<u8>> {
    let long = [b'n'; 255];
    let mut paths: Vec<Vec<u8>> = [
        b"/".as_slice(),
        b"/a",
        b"/..",
        b"/...",
        b"/.a",
        b"/a.",
        b"/a/..",
        b"/ ",
        b"/\x01",
        b"/\xff",
        b"/a/b/c",
    ]
    .map(<[u8]>::to_vec)
    .to_vec();
    paths.push([b"/", long.as_slice()].concat());
    paths.push([b"/a/", long.as_slice()].concat());
    paths.push(repeated(&long, 1024));
    paths.push(repeated(b"a", 1024));
    paths.push(repeated(b"n", 1024));
    paths
}

/// A lookup's number, kind and address.
pub type Answer = (u32, u32, u64);

/// What a lookup in the file of a plan has to say at full room.
pub fn answer(plan: &Plan, file: &File, path: &[u8]) -> Answer {
    if !is_path(path) {
        return (14, 0, 0);
    }
    let mut number = 0;
    let mut rest = if path == b"/" { &[] } else { path };
    while let Some(behind) = rest.strip_prefix(b"/") {
        let length = behind.iter().position(|byte| *byte == b'/');
        let (name, next) = behind.split_at(length.unwrap_or(behind.len()));
        let Some(group) = group(plan, number) else {
            return (17, 0, 0);
        };
        match group.links.iter().find(|link| link.name == name) {
            None => return (15, 0, 0),
            Some(link) => match link.target {
                Target::Object(target) => number = target,
                _ if next.is_empty() => return (0, 4, 0),
                _ => return (16, 0, 0),
            },
        }
        rest = next;
    }
    let kind = match plan.objects[number].content {
        Content::Group(_) => 1,
        Content::Dataset(_) => 2,
        Content::Committed => 3,
    };
    (0, kind, file.places[number])
}

/// Byte by byte: '/' first and not last, and what lies between two of them is a name.
fn is_path(path: &[u8]) -> bool {
    if path == b"/" {
        return true;
    }
    let mut name = Vec::new();
    for byte in path.iter().skip(1) {
        if *byte == b'/' {
            if !is_name(&name) {
                return false;
            }
            name.clear();
        } else {
            name.push(*byte);
        }
    }
    path.first() == Some(&b'/') && path.len() <= 1024 && is_name(&name)
}

fn is_name(name: &[u8]) -> bool {
    !name.is_empty() && name.len() < 256 && name != b"." && !name.contains(&0)
}
