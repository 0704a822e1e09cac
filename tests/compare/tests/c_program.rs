//! A program in C that includes the header, calls every function, and holds the header's constants against the library.

use compare::generate::{limits, small};
use compare::reader::MOST_OBJECTS;
use std::fs;
use std::path::Path;
use std::process::{Command, Output};

const SOURCE: &str = concat!(env!("CARGO_MANIFEST_DIR"), "/../c/calls.c");
const INCLUDE: &str = concat!(env!("CARGO_MANIFEST_DIR"), "/../../include");
const ARCHIVE: &str = concat!(
    env!("CARGO_MANIFEST_DIR"),
    "/../../target/staticlib/libebikwotula.a"
);

/// Runs a command to its end, which has to be a good one.
fn run(command: &mut Command) -> Output {
    let output = command.output().expect("a command that starts");
    let (said, wrong) = (&output.stdout, &output.stderr);
    let (said, wrong) = (
        String::from_utf8_lossy(said),
        String::from_utf8_lossy(wrong),
    );
    assert!(output.status.success(), "{said}{wrong}");
    print!("{said}");
    output
}

#[test]
fn a_program_in_c_calls_every_function() {
    let folder = Path::new(env!("CARGO_TARGET_TMPDIR")).join("c_program");
    fs::create_dir_all(&folder).expect("a folder");
    let names: [&[u8]; 2] = [b"a", b"b"];
    let links = names.map(|name| (name, small::DATASET));
    let files = [
        ("small.h5", small::e().bytes),
        ("wrong.h5", small::h_with(&links, 1, 1).bytes),
        ("small_deep.h5", limits::small_deep()),
        ("full.h5", limits::everything()),
        ("crowded.h5", small::objects(MOST_OBJECTS as u64 + 1).bytes),
        ("deep.h5", limits::deep()),
    ];
    for (name, image) in &files {
        fs::write(folder.join(name), image).expect("a file");
    }
    let program = folder.join("calls");
    let strict = [
        "-std=c11",
        "-Wall",
        "-Wextra",
        "-Wpedantic",
        "-Werror",
        "-O2",
    ];
    run(Command::new("cc")
        .args(strict)
        .args(["-I", INCLUDE, SOURCE, ARCHIVE, "-pthread", "-o"])
        .arg(&program));
    run(Command::new(&program)
        .current_dir(&folder)
        .args(files.iter().map(|(name, _)| name)));
}
