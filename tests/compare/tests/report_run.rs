//! The command of the damage report: its texts against those of `expected/`, and parts of them against what is made here.

mod command;

use command::{
    assert_message, assert_stored, built, folder, package, root, run, run_with_input,
    run_with_name, stored, COMMAND_BLOCKS, INPUT_MOST,
};
use compare::generate::block_orders::{rising, touching};
use compare::generate::moved;
use compare::generate::small::{self, DATASET, ROOT};
use compare::generate::special;
use compare::reader::MOST_BYTES;
use std::collections::BTreeSet;
use std::fs;
use std::path::PathBuf;
use std::process::{Command, Output};

const A_AND_B: [(&[u8], u64); 2] = [(b"a", DATASET), (b"b", DATASET)];

fn program() -> PathBuf {
    built("h5report")
}

/// An image with one byte changed.
fn with_byte(mut image: Vec<u8>, at: usize, byte: u8) -> Vec<u8> {
    image[at] = byte;
    image
}

fn h_with_byte(at: usize, byte: u8) -> Vec<u8> {
    with_byte(small::h().bytes, at, byte)
}

fn h_with_root(address: u64) -> Vec<u8> {
    small::h().with("root address", 0, address).bytes
}

fn e_with_length(length: usize) -> Vec<u8> {
    let mut image = small::e().bytes;
    image.resize(length, 0);
    image
}

/// The files, by the name of their texts. Each kind of block is the damaged one of some file.
fn files() -> Vec<(&'static str, Vec<u8>)> {
    let e_end_799 = small::e().with("superblock end of file", 0, 799);
    let data_at_799 = small::h().with("layout address", 0, 799);
    let continued = moved::continued().with("continuation address", 0, ROOT);
    vec![
        ("h5report_e", small::e().bytes),
        ("h5report_e_signature", with_byte(small::e().bytes, 0, 0x88)),
        ("h5report_e_end_799", e_end_799.bytes),
        ("h5report_e_95_bytes", e_with_length(95)),
        ("h5report_e_65537_bytes", e_with_length(INPUT_MOST + 1)),
        ("h5report_h", small::h().bytes),
        ("h5report_h_stored_1", small::h_with(&A_AND_B, 1, 1).bytes),
        ("h5report_h_heap_signature", h_with_byte(680, 0)),
        ("h5report_h_tree_signature", h_with_byte(136, 0)),
        ("h5report_h_name", h_with_byte(808, 0xff)),
        ("h5report_h_rank_33", h_with_byte(1153, 33)),
        ("h5report_h_root_at_0", h_with_root(0)),
        ("h5report_h_data_at_799", data_at_799.bytes),
        // Two lines of bytes are left, one, and none.
        ("h5report_h_root_at_1212", h_with_root(1212)),
        ("h5report_h_root_at_1220", h_with_root(1220)),
        ("h5report_h_root_outside", h_with_root(1 << 40)),
        ("h5report_continuation_at_96", continued.bytes),
    ]
}

/// A text on standard output and nothing else.
fn printed(output: &Output) -> String {
    assert_eq!(String::from_utf8_lossy(&output.stderr), "");
    String::from_utf8(output.stdout.clone()).expect("a text")
}

/// What the program prints for an image.
fn report(image: &[u8]) -> String {
    let output = run_with_input(&program(), image);
    assert_eq!(output.status.code(), Some(0));
    printed(&output)
}

#[test]
fn the_command_prints_the_stored_texts() {
    let folder = folder("file");
    for (name, image) in files() {
        assert_stored(&report(&image), name);
        fs::write(folder.join(name), &image).expect("a file");
        let output = run_with_name(&program(), &folder, name);
        assert_stored(&printed(&output), name);
        let left = fs::read(folder.join(name)).expect("the file");
        assert!(left == image, "{name} was changed");
    }
}

/// Any input of over 65,536 bytes is answered as the shortest of them is, and that of 65,536 bytes is read.
#[test]
fn the_command_reads_no_long_input() {
    for length in [65_538, 131_072, MOST_BYTES, MOST_BYTES + 1] {
        assert_stored(&report(&e_with_length(length)), "h5report_e_65537_bytes");
    }
    assert_stored(&report(&e_with_length(INPUT_MOST)), "h5report_e");
}

#[test]
fn what_cannot_be_read_is_named() {
    let folder = folder("unread");
    fs::create_dir(folder.join("a folder")).expect("a new folder");
    for name in ["absent.h5", "a folder"] {
        assert_message(&run_with_name(&program(), &folder, name), name);
    }
    let mut command = Command::new(program());
    let output = run(command.args(["one.h5", "two.h5"]), std::iter::empty());
    assert_message(&output, "usage: h5report [FILE]");
}

/// The lines that `hexdump -C` prints from the one that holds the byte `place` on, up to four, if there is such a byte.
fn dump(image: &[u8], place: usize) -> Vec<String> {
    let most = if place < image.len() { 4 } else { 0 };
    let rows = image.chunks(16).enumerate().skip(place / 16).take(most);
    rows.map(|(number, row)| {
        let mut digits: Vec<String> = row.iter().map(|byte| format!("{byte:02x}")).collect();
        digits.resize(16, "  ".to_string());
        let (first, second) = digits.split_at(8);
        let (first, second) = (first.join(" "), second.join(" "));
        let characters: String = row
            .iter()
            .map(|&byte| match byte {
                b' '..=b'~' => char::from(byte),
                _ => '.',
            })
            .collect();
        format!("{:08x}  {first}  {second}  |{characters}|", 16 * number)
    })
    .collect()
}

/// H with bytes behind it up to each length modulo 16, and a root at each place around the end.
#[test]
fn the_lines_are_those_of_a_dump() {
    let mut shown = BTreeSet::new();
    for more in 0..16 {
        let mut image = small::h().bytes;
        let behind = [0x00, 0x1f, 0x20, 0x7e, 0x7f, 0x80, 0xff];
        image.extend(behind.iter().cycle().take(more));
        let end = image.len();
        for place in end - 70..end + 2 {
            image[64..72].copy_from_slice(&(place as u64).to_le_bytes());
            let text = report(&image);
            let lines: Vec<&str> = text.lines().collect();
            // Some bytes there read as a header whose messages are at fault.
            let digits = lines[2].strip_prefix("place ").expect("a place");
            let place = usize::from_str_radix(digits, 16).expect("a place");
            let first = if lines[3].starts_with("meets") { 4 } else { 3 };
            let rows = &lines[first..lines.len() - 1];
            assert_eq!(rows, dump(&image, place));
            shown.insert((more, rows.len()));
        }
    }
    // Every length modulo 16, with no line to four.
    assert_eq!(shown.len(), 16 * 5);
}

/// The lines of the table "Answers" in README.md, by their numbers.
fn answers() -> Vec<(u32, String)> {
    let readme = fs::read_to_string(root().join("README.md")).expect("README.md");
    let table = readme.split("## Answers").nth(1).expect("the table");
    let rows = table.lines().filter_map(|line| {
        let (number, words) = line.strip_prefix("| ")?.split_once(" | ")?;
        let words = words.strip_suffix(" |")?;
        Some((number.parse().ok()?, words.to_string()))
    });
    rows.collect()
}

/// Each answer that an audit gives is said in the words of the table, and the place is the one that is told.
#[test]
fn answers_have_the_words_of_the_table() {
    let answers = answers();
    let mut met = BTreeSet::new();
    for special in special::all() {
        let image = &special.sheet.bytes;
        if special.number == 0 || image.len() > INPUT_MOST {
            continue;
        }
        let text = report(image);
        let (number, words) = &answers[special.number as usize];
        let expected = format!("answer {number}: {words}");
        assert_eq!(text.lines().next(), Some(&*expected), "{}", special.name);
        if let Some(place) = special.place {
            let expected = format!("place {place:016x}");
            assert_eq!(text.lines().nth(2), Some(&*expected), "{}", special.name);
        }
        met.insert(special.number);
    }
    // The command has room for fewer blocks than a special file can have.
    let blocks = |count| report(&touching(rising, count).bytes);
    let thirteen = format!("answer 13: {}\n", answers[13].1);
    assert!(blocks(COMMAND_BLOCKS + 1).starts_with(&thirteen));
    met.insert(13);
    let sound = format!("sound: 1 objects, {COMMAND_BLOCKS} blocks, 0 wrong counts\n");
    assert_eq!(blocks(COMMAND_BLOCKS), sound);
    // The stored texts have the answer 2.
    let two = format!("answer 2: {}\n", answers[2].1);
    assert!(stored("h5report_e_signature").starts_with(&two));
    met.insert(2);
    assert_eq!(met.into_iter().collect::<Vec<_>>(), Vec::from_iter(1..=13));
}

/// The longest text: as many objects as the input holds, and every one has a wrong count, of as many digits as there can be.
#[test]
fn every_count_is_wrong() {
    let mut image = small::packed(INPUT_MOST as u64).bytes;
    let audit = run_with_input(&built("h5audit"), &image);
    let audit = printed(&audit);
    let address = |line: &str| usize::from_str_radix(&line[..16], 16).expect("an address");
    let addresses: Vec<usize> = audit.lines().skip(1).map(address).collect();
    assert_eq!(addresses.len(), 975);
    for at in &addresses {
        image[at + 4..at + 8].copy_from_slice(&[0xff; 4]);
    }
    let text = report(&image);
    let mut lines = text.lines();
    let first = lines.next().expect("a line");
    assert!(first.starts_with("sound: 975 objects, "), "{first}");
    assert!(first.ends_with(" blocks, 975 wrong counts"), "{first}");
    let expected = addresses.iter().enumerate().map(|(number, at)| {
        let count = at + 4;
        format!("object {number} at {at:016x}: count at {count:016x} is 4294967295, links 1")
    });
    assert!(lines.eq(expected));
    assert!(text.ends_with('\n'));
}

/// The exit status that a text asks for.
fn status_of(text: &str) -> i32 {
    let first = text.lines().next().expect("a line");
    match first.strip_prefix("answer ") {
        None => 4 * i32::from(!first.ends_with(", 0 wrong counts")),
        Some(rest) => match rest.split(':').next().expect("an answer") {
            "1" | "2" | "3" | "12" | "13" => 64,
            _ => 4,
        },
    }
}

fn assert_status(output: &Output, name: &str) {
    assert_stored(&printed(output), name);
    let expected = status_of(&stored(name));
    assert_eq!(output.status.code(), Some(expected), "{name}");
}

#[test]
fn the_script_gives_a_status() {
    program();
    let folder = folder("script");
    let script = root().join("h5report");
    let mut met = BTreeSet::new();
    for (name, image) in files() {
        fs::write(folder.join(name), &image).expect("a file");
        assert_status(&run_with_name(&script, &folder, name), name);
        assert_status(&run_with_input(&script, &image), name);
        met.insert(status_of(&stored(name)));
    }
    assert_eq!(met.into_iter().collect::<Vec<_>>(), [0, 4, 64]);
    fs::create_dir(folder.join("a folder")).expect("a new folder");
    for name in ["absent.h5", "a folder"] {
        let output = run_with_name(&script, &folder, name);
        assert_message(&output, name);
        assert_eq!(output.status.code(), Some(8), "{name}");
    }
}

#[test]
fn the_script_refuses_other_usage() {
    program();
    let script = root().join("h5report");
    for words in [vec!["one.h5", "two.h5"], vec!["-x"], vec!["--install"]] {
        let output = run(Command::new(&script).args(&words), std::iter::empty());
        assert_message(&output, "usage: h5report [FILE]");
        assert_eq!(output.status.code(), Some(16), "{words:?}");
    }
    let help = run(Command::new(&script).arg("--help"), std::iter::empty());
    assert!(help.stdout.starts_with(b"usage: h5report [FILE]"));
    assert_eq!(help.status.code(), Some(0));
}

/// A closed standard input is no input, and no reason to wait.
#[test]
fn the_script_says_that_its_input_is_closed() {
    program();
    let mut command = Command::new("timeout");
    command
        .args(["60", "bash", "-c", "exec \"$0\" <&-"])
        .arg(root().join("h5report"));
    let output = run(&mut command, std::iter::empty());
    assert_message(&output, "standard input is closed");
    assert_eq!(output.status.code(), Some(8));
}

/// Both commands can be installed into one folder, and then need no toolchain.
#[test]
fn the_installed_commands_need_no_toolchain() {
    program();
    let bin = folder("installed").join("bin");
    for name in ["h5audit", "h5report"] {
        built(name);
        let mut install = Command::new(root().join(name));
        let output = run(
            install.arg("--install").arg(&bin),
            std::iter::empty::<&[u8]>(),
        );
        assert_eq!(output.status.code(), Some(0));
    }
    let image = small::h_with(&A_AND_B, 1, 1).bytes;
    for (name, text) in [
        ("h5audit", "h_stored_1"),
        ("h5report", "h5report_h_stored_1"),
    ] {
        let mut command = Command::new(bin.join(name));
        command.env("PATH", "/usr/bin:/bin");
        let output = run(&mut command, [&image[..]].into_iter());
        assert_stored(&printed(&output), text);
        assert_eq!(output.status.code(), Some(4));
    }
}

/// A text that no file is compared with is a mistake.
#[test]
fn every_text_is_used() {
    let used: BTreeSet<String> = files().iter().map(|(n, _)| format!("{n}.txt")).collect();
    let texts: BTreeSet<String> = fs::read_dir(package().join("expected"))
        .expect("the folder of texts")
        .map(|entry| entry.expect("a text").file_name())
        .map(|name| name.to_string_lossy().into_owned())
        .filter(|name| name.starts_with("h5report_"))
        .collect();
    assert_eq!(texts, used);
}
