//! The small files through the command and through the C front end, against the texts of `expected/`.
//!
//! `NAME.txt` is what the command prints. `NAME_c.txt` is what the C front end leaves: a line `answer N`, then a line
//! `list WORD VALUE` or `reply WORD VALUE` for each word that isn't zero. `h_lookup_*_c.txt` and `h_describe_*_c.txt` are
//! the same of lookups and descriptions in H, `c_describe_d_c.txt` of one in C.

mod command;

use command::{
    assert_message, assert_stored, built, folder, package, root, run, run_with_input,
    run_with_name, stored, COMMAND_BLOCKS, INPUT_MOST,
};
use compare::generate::block_orders::{rising, touching};
use compare::generate::small::{self, DATASET, ROOT};
use compare::library;
use compare::reader::front::{BLOCK_BYTES, DESCRIBE_WORDS, LOOKUP_WORDS, REPLY_WORDS};
use compare::reader::{MOST_BLOCKS, MOST_BYTES, MOST_OBJECTS};
use std::collections::BTreeSet;
use std::fs;
use std::path::PathBuf;
use std::process::{Command, Output};
use std::thread;
use std::time::Duration;

fn program() -> PathBuf {
    built("h5audit")
}

const A_AND_B: [(&[u8], u64); 2] = [(b"a", DATASET), (b"b", DATASET)];
const B_AND_A: [(&[u8], u64); 2] = [(b"b", DATASET), (b"a", DATASET)];
const LOOP: [(&[u8], u64); 3] = [(b"a", DATASET), (b"b", DATASET), (b"loop", ROOT)];

/// E, followed by zeros up to a length.
fn long_e(length: usize) -> Vec<u8> {
    let mut image = small::e().bytes;
    image.resize(length, 0);
    image
}

/// The files of "Small files to try", one object more than there may be, those at the limits of the command's input, some whose
/// blocks meet and some with sharings, by the name of their texts.
fn files() -> Vec<(&'static str, Vec<u8>)> {
    let e_ending = |end| small::e().with("superblock end of file", 0, end).bytes;
    vec![
        ("e", small::e().bytes),
        ("e_end_799", e_ending(799)),
        ("e_end_801", e_ending(801)),
        ("h", small::h().bytes),
        ("h_stored_1", small::h_with(&A_AND_B, 1, 1).bytes),
        ("h_stored_2", small::h_with(&A_AND_B, 1, 2).bytes),
        ("h_names_b_a", small::h_with(&B_AND_A, 1, 2).bytes),
        ("h_loop", small::h_with(&LOOP, 1, 2).bytes),
        ("addresses_1025", small::addresses(MOST_OBJECTS).bytes),
        ("e_65536_bytes", long_e(INPUT_MOST)),
        ("e_65537_bytes", long_e(INPUT_MOST + 1)),
        ("no_bytes", Vec::new()),
        ("h_root_at_0", small::h().with("root address", 0, 0).bytes),
        (
            "h_segment_at_130",
            small::h().with("heap segment", 0, 130).bytes,
        ),
        (
            "h_data_at_799",
            small::h().with("layout address", 0, 799).bytes,
        ),
        ("c", small::c().bytes),
        ("c_unshared", small::c().with("attribute flags", 0, 0).bytes),
        ("c_own_flag", small::c_with_own_flag().bytes),
    ]
}

/// Besides those, for the command: as many objects as its input holds, and its own limit of blocks.
fn command_files() -> Vec<(&'static str, Vec<u8>)> {
    let mut all = files();
    all.extend([
        ("objects_975", small::packed(INPUT_MOST as u64).bytes),
        ("blocks_1024", touching(rising, COMMAND_BLOCKS).bytes),
        ("blocks_1025", touching(rising, COMMAND_BLOCKS + 1).bytes),
    ]);
    all
}

/// Besides those, for C: as many objects as there may be.
fn c_files() -> Vec<(&'static str, Vec<u8>)> {
    let mut all = files();
    all.push(("objects_1024", small::objects(MOST_OBJECTS as u64).bytes));
    all
}

/// An audit's text on standard output, nothing else, and status 0.
fn assert_audit(output: &Output, name: &str) {
    let text = String::from_utf8_lossy(&output.stdout);
    assert_stored(&text, name);
    assert_eq!(String::from_utf8_lossy(&output.stderr), "", "{name}");
    assert_eq!(output.status.code(), Some(0), "{name}");
}

#[test]
fn the_command_reads_standard_input() {
    for (name, image) in command_files() {
        assert_audit(&run_with_input(&program(), &image), name);
    }
}

#[test]
fn the_command_reads_a_file() {
    let folder = folder("file");
    for (name, image) in command_files() {
        let path = folder.join(name).with_extension("h5");
        fs::write(&path, &image).expect("a file");
        assert_audit(&run_with_name(&program(), &folder, &path), name);
        assert!(
            fs::read(&path).expect("the file") == image,
            "{name} was changed"
        );
    }
}

/// The wait lets the command read each part before the next one comes.
#[test]
fn the_command_reads_an_input_in_parts() {
    let image = small::h_with(&A_AND_B, 1, 1).bytes;
    let parts = image
        .chunks(200)
        .inspect(|_| thread::sleep(Duration::from_millis(20)));
    assert_audit(&run(&mut Command::new(program()), parts), "h_stored_1");
}

/// Any input of over 65,536 bytes is answered as the shortest of them is.
#[test]
fn the_command_reads_no_long_input() {
    let folder = folder("long");
    for length in [65_538, 131_072, 131_872, MOST_BYTES, MOST_BYTES + 1] {
        let image = long_e(length);
        assert_audit(&run_with_input(&program(), &image), "e_65537_bytes");
        fs::write(folder.join("long.h5"), &image).expect("a file");
        let output = run_with_name(&program(), &folder, "long.h5");
        assert_audit(&output, "e_65537_bytes");
    }
}

#[test]
fn what_cannot_be_read_is_named() {
    let folder = folder("unread");
    fs::create_dir(folder.join("a folder")).expect("a new folder");
    for name in ["absent.h5", "a folder", "a folder/absent.h5"] {
        let output = run_with_name(&program(), &folder, name);
        assert_message(&output, name);
    }
}

#[test]
fn two_arguments_are_refused() {
    let folder = folder("two");
    for name in ["one.h5", "two.h5"] {
        fs::write(folder.join(name), small::e().bytes).expect("a file");
    }
    let mut command = Command::new(program());
    command.current_dir(&folder).args(["one.h5", "two.h5"]);
    let output = run(&mut command, std::iter::empty());
    assert_message(&output, "usage: h5audit [FILE]");
}

/// The exit status that an audit's text asks for.
fn status_of(text: &str) -> i32 {
    match u32::from_str_radix(&text[..8], 16).expect("an answer") {
        0 => {
            let wrong = text.lines().skip(1).any(|line| line[16..24] != line[24..]);
            if wrong {
                4
            } else {
                0
            }
        }
        4..=11 => 4,
        _ => 64,
    }
}

/// An audit's text on standard output, nothing else, and its status.
fn assert_status(output: &Output, name: &str) {
    assert_stored(&String::from_utf8_lossy(&output.stdout), name);
    assert_eq!(String::from_utf8_lossy(&output.stderr), "", "{name}");
    let expected = status_of(&stored(name));
    assert_eq!(output.status.code(), Some(expected), "{name}");
}

/// The script finds the command wherever it is started, and takes names as relative to that folder.
#[test]
fn the_script_gives_a_status() {
    program();
    let folder = folder("script");
    let script = root().join("h5audit");
    let mut met = BTreeSet::new();
    for (name, image) in command_files() {
        let file = format!("{name}.h5");
        fs::write(folder.join(&file), &image).expect("a file");
        assert_status(&run_with_name(&script, &folder, &file), name);
        assert_status(&run_with_input(&script, &image), name);
        met.insert(status_of(&stored(name)));
    }
    assert_eq!(met.into_iter().collect::<Vec<_>>(), [0, 4, 64]);
    fs::create_dir(folder.join("a folder")).expect("a new folder");
    for name in ["absent.h5", "a folder"] {
        let output = run_with_name(&script, &folder, name);
        assert_message(&output, name);
        assert_eq!(output.status.code(), Some(8), "{name}");
    }
}

#[test]
fn the_script_refuses_other_usage() {
    program();
    let script = root().join("h5audit");
    for words in [vec!["one.h5", "two.h5"], vec!["-x"], vec!["--install"]] {
        let output = run(Command::new(&script).args(&words), std::iter::empty());
        assert_message(&output, "usage: h5audit [FILE]");
        assert_eq!(output.status.code(), Some(16), "{words:?}");
    }
    let help = run(Command::new(&script).arg("--help"), std::iter::empty());
    assert!(help.stdout.starts_with(b"usage: h5audit [FILE]"));
    assert_eq!(help.status.code(), Some(0));
}

/// A closed standard input is no input, and no reason to wait. With a name it doesn't matter.
#[test]
fn the_script_says_that_its_input_is_closed() {
    program();
    let script = root().join("h5audit");
    let folder = folder("closed");
    fs::write(folder.join("e.h5"), small::e().bytes).expect("a file");
    let closed = |words: &str| {
        let mut command = Command::new("timeout");
        command
            .current_dir(&folder)
            .args(["60", "bash", "-c", &format!("exec \"$0\" {words} <&-")])
            .arg(&script);
        run(&mut command, std::iter::empty())
    };
    let output = closed("");
    assert_message(&output, "standard input is closed");
    assert_eq!(output.status.code(), Some(8));
    assert_status(&closed("e.h5"), "e");
}

/// Where it is installed the command needs nothing of the repository and no toolchain.
#[test]
fn the_installed_command_needs_no_toolchain() {
    program();
    let folder = folder("installed");
    let mut install = Command::new(root().join("h5audit"));
    install.arg("--install").arg(folder.join("bin"));
    let output = run(&mut install, std::iter::empty());
    assert_eq!(output.status.code(), Some(0));
    let mut command = Command::new(folder.join("bin/h5audit"));
    command.env("PATH", "/usr/bin:/bin");
    let image = small::h_with(&A_AND_B, 1, 1).bytes;
    assert_status(&run(&mut command, [&image[..]].into_iter()), "h_stored_1");
}

/// Of several calls in a repository where nothing is built one builds, says so, and all answer. Here `rt` is a script that takes
/// a while and leaves the program.
#[test]
fn several_first_calls_build_once() {
    let folder = folder("several");
    fs::create_dir_all(folder.join("crates/h5audit")).expect("a new folder");
    fs::create_dir_all(folder.join("tools")).expect("a new folder");
    fs::write(folder.join("crates.txt"), "").expect("a file");
    for name in ["h5audit", "ebikwotula-command.sh"] {
        fs::copy(root().join(name), folder.join(name)).expect("a copy");
    }
    let rt = format!(
        "#!/bin/sh\necho built >> ../../built\nsleep 1\nmkdir -p out\ncp {} out/h5audit\n",
        program().display()
    );
    fs::write(folder.join("tools/rt"), rt).expect("a file");
    let executable = fs::metadata(root().join("h5audit")).expect("the script");
    fs::set_permissions(folder.join("tools/rt"), executable.permissions()).expect("a mode");
    let path = format!("{}:/usr/bin:/bin", folder.join("tools").display());
    let calls: Vec<_> = (0..4)
        .map(|_| {
            let mut command = Command::new(folder.join("h5audit"));
            command.env("PATH", &path);
            thread::spawn(move || run(&mut command, [&small::e().bytes[..]].into_iter()))
        })
        .collect();
    let outputs: Vec<_> = calls
        .into_iter()
        .map(|c| c.join().expect("a call"))
        .collect();
    for output in &outputs {
        assert_stored(&String::from_utf8_lossy(&output.stdout), "e");
        assert_eq!(output.status.code(), Some(0));
    }
    let said = |o: &&Output| String::from_utf8_lossy(&o.stderr).contains("proved and built");
    assert_eq!(outputs.iter().filter(said).count(), 1);
    assert_eq!(
        fs::read_to_string(folder.join("built")).expect("a file"),
        "built\n"
    );
}

/// What lay in the slices before a call.
const BEFORE: u8 = 0xa5;

/// What an audit by the C front end leaves, with room for so many blocks.
fn left_by_c(image: &[u8], room: usize) -> String {
    left_by(room, REPLY_WORDS, |blocks, reply| {
        library::audit(image, blocks, reply)
    })
}

/// What a call leaves, with room for so many blocks and so many words for the reply. Behind the last block three words and
/// three bytes are spare, behind the reply five bytes.
fn left_by(room: usize, reply_words: usize, call: impl Fn(&mut [u8], &mut [u8]) -> u32) -> String {
    let mut blocks = vec![BEFORE; BLOCK_BYTES * room + 27];
    let mut reply = vec![BEFORE; 8 * reply_words + 5];
    let number = call(&mut blocks, &mut reply);
    format!("answer {number}\n") + &words("list", &blocks) + &words("reply", &reply)
}

/// The words that aren't zero; spare bytes stand as a last word.
fn words(slice: &str, bytes: &[u8]) -> String {
    let mut text = String::new();
    for (number, part) in bytes.chunks(8).enumerate() {
        let mut eight = [0; 8];
        eight[..part.len()].copy_from_slice(part);
        let word = u64::from_le_bytes(eight);
        if word != 0 {
            text += &format!("{slice} {number} {word}\n");
        }
    }
    text
}

#[test]
fn the_c_front_end_leaves_the_stored_words() {
    for (name, image) in c_files() {
        assert_stored(&left_by_c(&image, MOST_BLOCKS), &format!("{name}_c"));
    }
}

/// More room than an audit uses changes nothing.
#[test]
fn the_c_front_end_at_other_rooms() {
    let e = small::e().bytes;
    assert_stored(&left_by_c(&e, 5), "e_5_blocks_c");
    assert_stored(&left_by_c(&e, 4), "e_4_blocks_c");
    for (name, image) in c_files() {
        let text = left_by_c(&image, MOST_BLOCKS + 1000);
        assert_stored(&text, &format!("{name}_c"));
    }
}

/// The texts of lookups in H, and the paths.
const LOOKUPS: [(&str, &[u8]); 6] = [
    ("h_lookup_root_c", b"/"),
    ("h_lookup_a_c", b"/a"),
    ("h_lookup_b_c", b"/b"),
    ("h_lookup_absent_c", b"/c"),
    ("h_lookup_below_a_c", b"/a/b"),
    ("h_lookup_bad_path_c", b"/a/"),
];

/// The same of descriptions.
const DESCRIPTIONS: [(&str, &[u8]); 6] = [
    ("h_describe_root_c", b"/"),
    ("h_describe_a_c", b"/a"),
    ("h_describe_a_c", b"/b"),
    ("h_lookup_absent_c", b"/c"),
    ("h_lookup_below_a_c", b"/a/b"),
    ("h_lookup_bad_path_c", b"/a/"),
];

/// Room for 6 blocks is what the root group needs.
#[test]
fn lookups_in_h_leave_the_stored_words() {
    let image = small::h().bytes;
    for room in [6, 7, MOST_BLOCKS, MOST_BLOCKS + 1000] {
        for (name, path) in LOOKUPS {
            let text = left_by(room, LOOKUP_WORDS, |blocks, reply| {
                library::lookup(&image, path, blocks, reply)
            });
            assert_stored(&text, name);
        }
        for (name, path) in DESCRIPTIONS {
            let text = left_by(room, DESCRIBE_WORDS, |blocks, reply| {
                library::describe(&image, path, blocks, reply)
            });
            assert_stored(&text, name);
        }
    }
}

/// The dataset "d" of C is described by the address of what it shares. With the shared flag on the datatype's own message
/// a lookup of it and one through it give 10, and "d" is still found.
#[test]
fn lookups_in_c_leave_the_stored_words() {
    for sheet in [small::c(), small::c_with_own_flag()] {
        let text = left_by(6, DESCRIBE_WORDS, |blocks, reply| {
            library::describe(&sheet.bytes, b"/d", blocks, reply)
        });
        assert_stored(&text, "c_describe_d_c");
    }
    let flagged = small::c_with_own_flag().bytes;
    for path in [b"/t".as_slice(), b"/t/x"] {
        let text = left_by(6, LOOKUP_WORDS, |blocks, reply| {
            library::lookup(&flagged, path, blocks, reply)
        });
        assert_stored(&text, "c_own_flag_c");
        let text = left_by(6, DESCRIBE_WORDS, |blocks, reply| {
            library::describe(&flagged, path, blocks, reply)
        });
        assert_stored(&text, "c_own_flag_c");
    }
}

/// A text that no file is compared with is a mistake.
#[test]
fn every_text_is_used() {
    let by_command = command_files().into_iter();
    let by_command = by_command.map(|(name, _)| format!("{name}.txt"));
    let by_c = c_files().into_iter();
    let by_c = by_c.map(|(name, _)| format!("{name}_c.txt"));
    let mut used: Vec<String> = by_command
        .chain(by_c)
        .chain(["e_5_blocks_c.txt", "e_4_blocks_c.txt", "c_describe_d_c.txt"].map(str::to_string))
        .chain(
            [LOOKUPS, DESCRIPTIONS]
                .concat()
                .iter()
                .map(|(name, _)| format!("{name}.txt")),
        )
        .collect();
    used.sort();
    used.dedup();
    let mut texts: Vec<String> = fs::read_dir(package().join("expected"))
        .expect("the folder of texts")
        .map(|entry| entry.expect("a text").file_name())
        .map(|name| name.to_string_lossy().into_owned())
        // Those of the other command are in another test.
        .filter(|name| !name.starts_with("h5report_"))
        .collect();
    texts.sort();
    assert_eq!(texts, used);
}
