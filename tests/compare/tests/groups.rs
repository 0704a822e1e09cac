//! Groups by name, through the proved library and the separate reader: heaps, names, tree nodes and symbol nodes. Each
//! has the number that document 01 gives it.

use compare::agree::{lent_bytes, Pair};
use compare::generate::group::{write_heap, write_node, write_symbols, Child, Entry, Segment};
use compare::generate::header::{self, Message};
use compare::generate::plan::{Plan, Target};
use compare::generate::sheet::Sheet;
use compare::generate::small::{self, ROOT};
use compare::generate::special::{link, root};
use compare::generate::superblock::Superblock;
use compare::generate::write::write;
use compare::generate::UNDEFINED;
use compare::reader::front::{BLOCK_BYTES, REPLY_WORDS};
use compare::reader::{MOST_BLOCKS, MOST_BYTES, MOST_OBJECTS};

/// Room for every block that an audit may enter.
const FULL: usize = MOST_BLOCKS;

struct Case {
    name: String,
    sheet: Sheet,
    room: usize,
    number: u32,
}

fn case(name: impl Into<String>, sheet: Sheet, number: u32) -> Case {
    case_at(name, sheet, FULL, number)
}

fn case_at(name: impl Into<String>, sheet: Sheet, room: usize, number: u32) -> Case {
    Case {
        name: name.into(),
        sheet,
        room,
        number,
    }
}

/// A field's name and number, its new value, and the answer then.
type Change = (&'static str, usize, u64, u32);

fn changes(of: &str, sheet: &Sheet, changes: &[Change]) -> Vec<Case> {
    changes
        .iter()
        .map(|&(field, nth, value, number)| {
            let name = format!("{of}: {field} {nth} is {value:#x}");
            case(name, sheet.with(field, nth, value), number)
        })
        .collect()
}

fn hard(name: u64) -> Entry {
    Entry {
        name,
        address: ROOT,
        kind: 0,
        scratch: 0,
    }
}

fn soft(name: u64, value: u64) -> Entry {
    Entry {
        name,
        address: UNDEFINED,
        kind: 2,
        scratch: value,
    }
}

fn write_root(sheet: &mut Sheet, ks: (u64, u64), tree: u64, heap: u64) {
    let superblock = Superblock {
        version: 0,
        leaf_k: ks.0 as u16,
        internal_k: ks.1 as u16,
        end: sheet.bytes.len() as u64,
        root: ROOT,
    };
    superblock.write(sheet);
    let table = Message::symbol_table(tree, heap);
    header::write(sheet, &[ROOT], 1, &[vec![table]]);
}

/// A root group with a hard link "a" to itself, below a node of each of these levels, one child a node. Heap at 136,
/// segment at 168 with "a" at its offset 8, nodes from 184 on, the symbol node last.
fn chain(leaf_k: u64, internal_k: u64, levels: &[u8]) -> Sheet {
    let mut segment = Segment::new();
    let name = segment.string(b"a");
    let mut sheet = Sheet::default();
    write_heap(&mut sheet, 136, 1, 168, &segment.sheet);
    for level in levels {
        let at = sheet.reserve(32 + 32 * internal_k);
        let child = Child {
            address: sheet.reserve(0),
            key: name,
        };
        write_node(&mut sheet, at, *level, 0, &[child]);
    }
    let at = sheet.reserve(8 + 80 * leaf_k);
    write_symbols(&mut sheet, at, &[hard(name)]);
    write_root(&mut sheet, (leaf_k, internal_k), 184, 136);
    sheet
}

/// The levels of a chain from its root down.
fn falling_from(level: u8) -> Vec<u8> {
    (0..=level).rev().collect()
}

const TREE: u64 = 136;
const HEAP: u64 = 232;
const NODES: u64 = 264;
const NODE_LENGTH: u64 = 168;

/// A root group with both K 2, one tree node with these keys and these symbol nodes below it; the segment comes last.
fn group(segment: &Segment, head: u64, keys: &[u64], nodes: &[Vec<Entry>]) -> Sheet {
    let mut sheet = Sheet::default();
    let mut children = Vec::new();
    for (number, entries) in nodes.iter().enumerate() {
        let address = NODES + NODE_LENGTH * number as u64;
        write_symbols(&mut sheet, address, entries);
        let key = keys[number + 1];
        children.push(Child { address, key });
    }
    write_node(&mut sheet, TREE, 0, keys[0], &children);
    let place = NODES + NODE_LENGTH * nodes.len() as u64;
    write_heap(&mut sheet, HEAP, head, place, &segment.sheet);
    write_root(&mut sheet, (2, 2), TREE, HEAP);
    sheet
}

/// A group of hard links to itself with these names in its symbol nodes, and keys that are strings of their own.
fn named(nodes: &[&[&[u8]]], keys: &[&[u8]]) -> Sheet {
    let mut segment = Segment::new();
    let mut nodes_of_entries = Vec::new();
    for names in nodes {
        let entries = names.iter().map(|name| hard(segment.string(name)));
        nodes_of_entries.push(entries.collect());
    }
    let keys: Vec<u64> = keys.iter().map(|key| segment.string(key)).collect();
    group(&segment, 1, &keys, &nodes_of_entries)
}

/// A key that no name is above.
const LAST: [u8; 256] = [255; 256];

/// One name, with keys that let every name pass.
fn one_name(name: &[u8]) -> Sheet {
    named(&[&[name]], &[b"", &LAST])
}

fn levels() -> Vec<Case> {
    let mut all = Vec::new();
    for level in 0..=8 {
        let sheet = chain(1, 1, &falling_from(level));
        // Superblock, header, heap, segment, the tree nodes and one symbol node.
        let blocks = 6 + usize::from(level);
        let short = format!("level {level}, room for {} blocks", blocks - 1);
        all.push(case_at(short, sheet.clone(), blocks - 1, 13));
        let enough = format!("level {level}, room for {blocks} blocks");
        all.push(case_at(enough, sheet, blocks, 0));
    }
    for (levels, number) in [
        (falling_from(9), 8),
        (vec![255], 8),
        (vec![1, 1, 0], 8),
        (vec![2, 0], 8),
        (vec![2, 1, 1], 8),
        (vec![8, 7, 6, 5, 4, 3, 2, 1, 1], 8),
        // A symbol node in place of a tree node, and a tree node in place of a symbol node.
        (vec![1], 7),
        (vec![0, 0], 7),
    ] {
        let name = format!("levels {levels:?}");
        all.push(case(name, chain(1, 1, &levels), number));
    }
    all
}

fn empty_nodes() -> Vec<Case> {
    let e = small::e();
    let mut keys = e.clone();
    keys.raw(136 + 24, &[255; 520]);
    let mut all = vec![
        case("empty root of level 0", e.clone(), 0),
        case("empty root whose keys and children are all ones", keys, 0),
    ];
    all.extend(changes(
        "empty root",
        &e,
        &[("tree level", 0, 1, 8), ("tree level", 0, 8, 8)],
    ));
    let two = chain(1, 1, &[1, 0]);
    all.extend(changes(
        "two levels",
        &two,
        &[("tree entries", 0, 0, 8), ("tree entries", 1, 0, 8)],
    ));
    all
}

/// The longest nodes that there can be, as many as an image can hold, and one more.
fn large_ks() -> Vec<Case> {
    const TOP: u64 = 65_535;
    let many = |nodes: u8| chain(TOP, TOP, &falling_from(nodes - 1));
    let mut too_many = many(6);
    assert!(too_many.bytes.len() > MOST_BYTES);
    too_many.bytes.truncate(MOST_BYTES);
    let too_many = too_many.with("superblock end of file", 0, MOST_BYTES as u64);
    // With these a node's count can be above twice the K.
    let (leaf, internal) = (chain(32_767, 1, &[0]), chain(1, 32_767, &[0]));
    let end = leaf.bytes.len() as u64;
    let mut all = vec![
        case("both K 1", chain(1, 1, &[0]), 0),
        case("both K 65,535", many(5), 0),
        case("both K 65,535, a node more", too_many, 5),
        case("leaf K 32,767", leaf.clone(), 0),
        case("internal K 32,767", internal.clone(), 0),
    ];
    all.extend(changes(
        "both K 1",
        &chain(1, 1, &[0]),
        &[
            ("superblock leaf K", 0, TOP, 5),
            ("superblock internal K", 0, TOP, 5),
            ("superblock leaf K", 0, 2, 5),
        ],
    ));
    all.extend(changes(
        "leaf K 32,767",
        &leaf,
        &[
            ("superblock end of file", 0, end - 1, 5),
            // The second entry has the empty name.
            ("symbols count", 0, 65_534, 9),
            ("symbols count", 0, 65_535, 8),
        ],
    ));
    all.extend(changes(
        "internal K 32,767",
        &internal,
        &[
            // The second child is at 0, where the superblock is.
            ("tree entries", 0, 65_534, 6),
            ("tree entries", 0, 65_535, 8),
        ],
    ));
    all
}

fn names() -> Vec<Case> {
    let of = |byte, length| one_name(&vec![byte; length]);
    vec![
        case("name of 1 byte", one_name(b"a"), 0),
        case("name of 255 bytes", of(b'n', 255), 0),
        case("name of 256 bytes", of(b'n', 256), 9),
        case("name of 300 bytes", of(b'n', 300), 9),
        case("name of 255 bytes that are 255", of(255, 255), 0),
        case("name .", one_name(b"."), 9),
        case("name ..", one_name(b".."), 0),
        case("name .a", one_name(b".a"), 0),
        case("name /", one_name(b"/"), 9),
        case("name a/b", one_name(b"a/b"), 9),
        case("name ab/", one_name(b"ab/"), 9),
        case("empty name", one_name(b""), 9),
    ]
}

/// "first" at 8, a free block at 16, "n" at 32, 8 bytes without NUL at 40, a free block at 48, "last" at 64, "z" at 72,
/// and 6 bytes without NUL at 80, where the segment ends.
fn segment_with_holes() -> Segment {
    let mut segment = Segment::new();
    segment.string(b"first");
    segment.hole(16);
    segment.string(b"n");
    segment.sheet.text("heap string", 40, b"eight888");
    segment.hole(16);
    segment.string(b"last");
    segment.string(b"z");
    segment.string(b"no NUL");
    segment.sheet.bytes.truncate(86);
    segment
}

/// One entry with that heap; the keys are "" and "z".
fn in_heap(entry: Entry) -> Sheet {
    let mut segment = segment_with_holes();
    let head = segment.link_free();
    group(&segment, head, &[0, 72], &[vec![entry]])
}

/// 8 bytes at 8 without NUL, a free block at 16 whose first byte is 0, since the next one is at 256, "n" at 32, and
/// that next one as the last 16 bytes of the segment.
fn at_the_edges(entry: impl Fn(u64, u64) -> Entry) -> Sheet {
    let mut segment = Segment::new();
    segment.sheet.text("heap string", 8, b"eight888");
    segment.hole(16);
    let n = segment.string(b"n");
    segment.sheet.reserve(256 - 40);
    segment.hole(16);
    let head = segment.link_free();
    group(&segment, head, &[0, n], &[vec![entry(8, n)]])
}

fn free_blocks_at_the_edges() -> Vec<Case> {
    let name = at_the_edges(|eight, _| hard(eight));
    let value = at_the_edges(|eight, n| soft(n, eight));
    vec![
        case("free block at the end", at_the_edges(|_, n| hard(n)), 0),
        case("name whose NUL begins a free block", name, 9),
        case("link value whose NUL begins a free block", value, 9),
    ]
}

fn names_in_heap() -> Vec<Case> {
    let mut all = vec![
        case("name before a free block", in_heap(hard(8)), 0),
        case("name behind a free block", in_heap(hard(32)), 0),
        case("name whose NUL is in a free block", in_heap(hard(40)), 9),
        case("name in a free block", in_heap(hard(24)), 9),
        case("name in the last free block", in_heap(hard(56)), 9),
        case("name without NUL", in_heap(hard(80)), 9),
        case("name at the segment's last byte", in_heap(hard(85)), 9),
        case("name at the segment's end", in_heap(hard(86)), 9),
        case("name at 2^64 - 1", in_heap(hard(UNDEFINED)), 9),
        case("name that is the end of another", in_heap(hard(65)), 0),
    ];
    // "a" is at 8 and its NUL at 9.
    all.extend(changes(
        "one level",
        &chain(1, 1, &[0]),
        &[
            ("heap segment size", 0, 10, 0),
            ("heap segment size", 0, 9, 9),
        ],
    ));
    all
}

fn keys() -> Vec<Case> {
    let between = |low: &[u8], high: &[u8]| named(&[&[b"m"]], &[low, high]);
    let mut all = vec![
        case("name at its upper key", between(b"", b"m"), 0),
        case("name above its upper key", between(b"", b"l"), 8),
        case("name that its upper key begins", between(b"", b"lz"), 8),
        case("name equal to its lower key", between(b"m", b"z"), 8),
        case("name below its lower key", between(b"n", b"z"), 8),
        case("name that begins its lower key", between(b"m0", b"z"), 8),
        case("name above its lower key", between(b"lz", b"z"), 0),
        case("empty keys", between(b"", b""), 8),
        case("keys with slashes", between(b"/", b"m/"), 0),
        case("key of 256 bytes as upper", between(b"", &[b'm'; 256]), 0),
        case("key of 256 bytes as lower", between(&[b'm'; 256], b"z"), 8),
    ];
    let of_two = |key: &[u8]| named(&[&[b"a"], &[b"c"]], &[b"", key, b"c"]);
    all.extend([
        case("key below both names", of_two(b"Z"), 8),
        case("key at the first name", of_two(b"a"), 0),
        case("key between two names", of_two(b"b"), 0),
        case("key at the second name", of_two(b"c"), 8),
    ]);
    all.push(keys_before_children());
    // 8 is the offset of the name "a", 0 of the empty string, 15 of the segment's last byte, which is NUL.
    all.extend(changes(
        "two levels",
        &chain(1, 1, &[1, 0]),
        &[
            ("tree key", 0, 8, 8),
            ("tree key", 1, 0, 8),
            ("tree key", 2, 8, 8),
            ("tree key", 3, 0, 8),
            ("tree key", 0, 15, 0),
            ("tree key", 1, 15, 8),
            ("tree key", 0, 16, 9),
            ("tree key", 1, 16, 9),
            ("tree key", 2, UNDEFINED, 9),
            ("tree key", 3, UNDEFINED, 9),
        ],
    ));
    all.extend(changes(
        "heap with an end that has no NUL",
        &in_heap(hard(8)),
        &[
            ("tree key", 0, 80, 9),
            ("tree key", 1, 80, 9),
            // A key may lie in a free block.
            ("tree key", 0, 24, 0),
        ],
    ));
    all
}

/// All keys of a node are read before its first child.
fn keys_before_children() -> Case {
    let sheet = named(&[&[b"a"], &[b"b"]], &[b"", b"a", b"b"]);
    let wrong = sheet
        .with("tree key", 2, UNDEFINED)
        .with("symbols signature", 0, 0);
    case("last key and first child wrong", wrong, 9)
}

fn order_of_names() -> Vec<Case> {
    let one = |names: &[&[u8]]| named(&[names], &[b"", &LAST]);
    let two = |first: &[u8], second: &[u8]| named(&[&[first], &[second]], &[b"", first, &LAST]);
    vec![
        case("names that rise", one(&[b"a", b"b"]), 0),
        case("names that fall", one(&[b"b", b"a"]), 8),
        case("equal names", one(&[b"a", b"a"]), 8),
        case("third name equal to the first", one(&[b"a", b"b", b"a"]), 8),
        case("a name and a longer one", one(&[b"a", b"ab"]), 0),
        case("a name and a shorter one", one(&[b"ab", b"a"]), 8),
        case("bytes above 127 come last", one(&[b"a", b"\x80"]), 0),
        case("bytes above 127 come first", one(&[b"\x80", b"a"]), 8),
        case("names that rise across nodes", two(b"a", b"b"), 0),
        case("names that fall across nodes", two(b"b", b"a"), 8),
        case("equal names across nodes", two(b"a", b"a"), 8),
    ]
}

fn entries() -> Vec<Case> {
    let mut all = changes(
        "hard link",
        &in_heap(hard(8)),
        &[
            ("entry type", 0, 0, 0),
            ("entry type", 0, 1, 0),
            ("entry type", 0, 3, 8),
            ("entry type", 0, 4, 8),
            ("entry type", 0, 256, 8),
            ("entry type", 0, 0xffff_ffff, 8),
            ("entry scratch", 0, 0xffff_ffff, 0),
            ("entry reserved", 0, 0xffff_ffff, 0),
            ("entry address", 0, UNDEFINED, 5),
        ],
    );
    // Type 1's scratch isn't read.
    let cached = in_heap(hard(8)).with("entry type", 0, 1);
    all.extend(changes(
        "cached group",
        &cached,
        &[("entry scratch", 0, 0xffff_ffff, 0)],
    ));
    let value = |offset| in_heap(soft(8, offset));
    all.extend([
        case("symbolic link", value(64), 0),
        case("empty link value", value(0), 0),
        case("link value that is its name", value(8), 0),
        case("link value in a free block", value(24), 9),
        case("link value whose NUL is in a free block", value(40), 9),
        case("link value without NUL", value(80), 9),
        case("link value at the segment's end", value(86), 9),
        case("link value at 2^32 - 1", value(0xffff_ffff), 9),
    ]);
    let mut long = Segment::new();
    let name = long.string(b"a");
    let text = long.string(&[b'/'; 300]);
    let sheet = group(&long, 1, &[0, name], &[vec![soft(name, text)]]);
    all.push(case("link value of 300 slashes", sheet, 0));
    all
}

fn counts() -> Vec<Case> {
    let full_node = named(&[&[b"a", b"b", b"c", b"d"]], &[b"", &LAST]);
    let nodes: [&[&[u8]]; 4] = [&[b"a"], &[b"b"], &[b"c"], &[b"d"]];
    let full_tree = named(&nodes, &[b"", b"a", b"b", b"c", b"d"]);
    let mut all = changes(
        "full symbol node",
        &full_node,
        &[
            ("symbols count", 0, 4, 0),
            ("symbols count", 0, 1, 0),
            ("symbols count", 0, 0, 8),
            ("symbols count", 0, 5, 8),
            ("symbols count", 0, 65_535, 8),
        ],
    );
    all.extend(changes(
        "full tree node",
        &full_tree,
        &[
            ("tree entries", 0, 4, 0),
            ("tree entries", 0, 1, 0),
            ("tree entries", 0, 5, 8),
            ("tree entries", 0, 65_535, 8),
            ("symbols count", 3, 0, 8),
            ("symbols count", 3, 5, 8),
        ],
    ));
    all
}

/// Each of four bytes of a signature changed.
fn signatures(sheet: &Sheet, field: &'static str, nth: usize) -> Vec<Case> {
    let signature = sheet.value(sheet.field(field, nth));
    let wrong: Vec<Change> = (0..4)
        .map(|byte| (field, nth, signature ^ 0x20 << (8 * byte), 7))
        .collect();
    changes("signature", sheet, &wrong)
}

fn signatures_and_versions() -> Vec<Case> {
    let two = chain(1, 1, &[1, 0]);
    let mut all = signatures(&two, "tree signature", 0);
    all.extend(signatures(&two, "tree signature", 1));
    all.extend(signatures(&two, "symbols signature", 0));
    all.extend(signatures(&two, "heap signature", 0));
    all.extend(changes(
        "two levels",
        &two,
        &[
            ("symbols version", 0, 0, 7),
            ("symbols version", 0, 2, 7),
            ("heap version", 0, 1, 7),
            ("heap version", 0, 255, 7),
            ("tree type", 0, 1, 8),
            ("tree type", 1, 1, 8),
            ("symbols reserved", 0, 255, 0),
            ("heap reserved", 0, 0xff_ffff, 0),
            ("tree left", 0, 0, 0),
            ("tree right", 1, 0, 0),
        ],
    ));
    all
}

/// Free blocks of 16 bytes at 16 and 48 in a segment of 86 bytes; H has one of 64 bytes at 24, up to the segment's end.
fn free_lists() -> Vec<Case> {
    let two = in_heap(hard(8));
    let mut all = changes(
        "two free blocks",
        &two,
        &[
            ("heap free head", 0, 48, 0),
            ("heap free head", 0, 1, 0),
            ("heap free head", 0, UNDEFINED, 0),
            // In a circle, of one block and of two.
            ("free next", 0, 16, 9),
            ("free next", 1, 16, 9),
            ("free next", 1, 48, 9),
            ("free next", 0, 1, 0),
            ("free next", 0, UNDEFINED, 9),
            ("free next", 0, 0, 9),
            ("free next", 1, 71, 9),
            ("free next", 1, 86, 9),
            ("free size", 0, 0, 9),
            ("free size", 0, 8, 9),
            ("free size", 0, 15, 9),
            ("free size", 0, 32, 0),
            ("free size", 0, 33, 9),
            ("free size", 0, 70, 9),
            ("free size", 0, 71, 9),
            ("free size", 1, 38, 0),
            ("free size", 1, 39, 9),
            ("free size", 1, UNDEFINED, 9),
            ("free size", 1, 0u64.wrapping_sub(48), 9),
            ("heap free head", 0, 86 - 15, 9),
            ("heap free head", 0, 86, 9),
            ("heap free head", 0, 0u64.wrapping_sub(16), 9),
        ],
    );
    all.extend(changes(
        "H",
        &small::h(),
        &[
            ("free size", 0, 64, 0),
            ("free size", 0, 65, 9),
            ("free size", 0, 16, 0),
            ("free size", 0, 15, 9),
            ("free next", 0, 24, 9),
            ("heap segment size", 0, 7, 9),
            ("heap segment size", 0, 0, 9),
            ("heap segment size", 0, 87, 9),
            ("heap segment size", 0, 89, 6),
            ("heap segment size", 0, UNDEFINED, 5),
        ],
    ));
    let listless = small::e().with("heap free head", 0, 1);
    all.extend(changes(
        "E without free list",
        &listless,
        &[
            ("heap segment size", 0, 8, 0),
            ("heap segment size", 0, 7, 9),
        ],
    ));
    all
}

/// A root group with a group of its own heap, tree and symbol node.
fn two_groups() -> Sheet {
    let inner = root(vec![link("up", Target::Object(0))]);
    let outer = root(vec![link("inner", Target::Object(1))]);
    write(&Plan::new(vec![outer, inner]), 1).sheet
}

/// The second group's field has the value of the first's.
fn shared(field: &'static str) -> Case {
    let sheet = two_groups();
    let value = sheet.value(sheet.field(field, 0));
    case(
        format!("two groups with one {field}"),
        sheet.with(field, 1, value),
        6,
    )
}

fn overlaps() -> Vec<Case> {
    let mut all = vec![
        case("two groups", two_groups(), 0),
        shared("table heap"),
        shared("table tree"),
        shared("heap segment"),
        shared("tree child"),
    ];
    let two_nodes = named(&[&[b"a"], &[b"b"]], &[b"", b"a", b"b"]);
    all.extend(changes(
        "two symbol nodes",
        &two_nodes,
        &[
            ("tree child", 1, NODES, 6),
            ("tree child", 1, NODES + NODE_LENGTH - 1, 6),
            // Its last byte is the segment's first.
            ("tree child", 1, NODES + NODE_LENGTH + 1, 6),
            ("tree child", 0, TREE, 6),
            ("table heap", 0, 0, 6),
            ("table heap", 0, ROOT, 6),
            ("table tree", 0, HEAP, 6),
            ("heap segment", 0, HEAP, 6),
            ("heap segment", 0, HEAP + 31, 6),
        ],
    ));
    all
}

fn outside() -> Vec<Case> {
    let h = small::h();
    let mut all = changes(
        "H",
        &h,
        &[
            ("table heap", 0, 1228 - 31, 5),
            ("heap segment", 0, 1228 - 87, 5),
            ("table tree", 0, 1228 - 543, 5),
            ("tree child", 0, 1228 - 327, 5),
        ],
    );
    let top = |length: u64| 0u64.wrapping_sub(length);
    // Address and length add up to 2^64, or to one more.
    for more in [0, 1] {
        all.extend(changes(
            "H",
            &h,
            &[
                ("table heap", 0, top(32) + more, 5),
                ("heap segment", 0, top(88) + more, 5),
                ("heap segment size", 0, top(712) + more, 5),
                ("table tree", 0, top(544) + more, 5),
                ("tree child", 0, top(328) + more, 5),
            ],
        ));
    }
    all
}

fn objects() -> Vec<Case> {
    let most = MOST_OBJECTS as u64;
    let many = small::objects(most + 1);
    let mut all = vec![
        case("most objects", small::objects(most), 0),
        case("one object more", many.clone(), 12),
    ];
    let last = MOST_OBJECTS - 1;
    all.extend(changes(
        "one object more",
        &many,
        &[
            ("entry address", last, ROOT, 0),
            ("entry type", last, 2, 0),
            ("entry type", last, 3, 8),
            ("entry name", last, 0, 9),
            ("entry address", last, UNDEFINED, 12),
            // No other header is read before the root's group is at its end.
            ("header version", 0, 2, 12),
        ],
    ));
    all
}

fn rooms() -> Vec<Case> {
    let h = small::h();
    let mut all = Vec::new();
    for room in 0..8 {
        all.push(case_at(format!("H, room {room}"), h.clone(), room, 13));
    }
    all.push(case_at("H, room 8", h.clone(), 8, 0));
    // A full list: the next block is outside (5), meets another (6) or finds no room (13), and is read only then.
    for (field, room) in [
        ("table heap", 2),
        ("heap segment", 3),
        ("table tree", 4),
        ("tree child", 5),
        ("entry address", 6),
    ] {
        for (place, number) in [(9000, 5), (ROOT + 4, 6)] {
            let name = format!("H, room {room}, {field} {place}");
            all.push(case_at(name, h.with(field, 0, place), room, number));
        }
    }
    for (field, room) in [
        ("heap signature", 2),
        ("free size", 3),
        ("tree signature", 4),
        ("symbols signature", 5),
    ] {
        let wrong = h.with(field, 0, 0);
        let number = if field == "free size" { 9 } else { 7 };
        let short = format!("H, room {room}, {field} 0");
        all.push(case_at(short, wrong.clone(), room, 13));
        let enough = format!("H, room {}, {field} 0", room + 1);
        all.push(case_at(enough, wrong, room + 1, number));
    }
    all
}

fn all() -> Vec<Case> {
    let parts = [
        levels(),
        empty_nodes(),
        large_ks(),
        names(),
        names_in_heap(),
        free_blocks_at_the_edges(),
        keys(),
        order_of_names(),
        entries(),
        counts(),
        signatures_and_versions(),
        free_lists(),
        overlaps(),
        outside(),
        objects(),
        rooms(),
    ];
    parts.into_iter().flatten().collect()
}

/// The answers that a group's blocks can give.
const ANSWERS: [usize; 8] = [0, 5, 6, 7, 8, 9, 12, 13];

#[test]
fn named_groups_have_their_answers() {
    let mut pair = Pair::default();
    let mut reached = [0; 14];
    let mut wrong = Vec::new();
    let cases = all();
    for (turn, case) in cases.iter().enumerate() {
        let (name, image) = (&case.name, &case.sheet.bytes);
        for lent in lent_bytes(image, turn) {
            pair.agree(name, image, lent, 8 * REPLY_WORDS);
        }
        let number = pair.agree(name, image, BLOCK_BYTES * case.room, 8 * REPLY_WORDS);
        if number != case.number {
            wrong.push(format!("{name}: {number}, not {}", case.number));
        }
        reached[number as usize] += 1;
    }
    assert!(wrong.is_empty(), "{wrong:#?}");
    println!("{} groups; answers reached:", cases.len());
    for number in ANSWERS {
        println!("{number:4} {:4}", reached[number]);
        assert!(reached[number] > 0, "answer {number} was never reached");
    }
}
