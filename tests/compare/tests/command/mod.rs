//! What the tests of the commands share: running one, and the texts of `expected/`.

use std::ffi::OsStr;
use std::fs;
use std::io::{ErrorKind, Write};
use std::path::{Path, PathBuf};
use std::process::{Command, Output, Stdio};

/// The most bytes that a command answers for, and the most blocks that it has room for.
pub const INPUT_MOST: usize = 65_536;
pub const COMMAND_BLOCKS: usize = 1024;

pub fn package() -> &'static Path {
    Path::new(env!("CARGO_MANIFEST_DIR"))
}

pub fn root() -> PathBuf {
    let root = package().join("../..");
    fs::canonicalize(root).expect("the repository's root")
}

/// The program of a command.
pub fn built(name: &str) -> PathBuf {
    let program = root().join("target/bin").join(name);
    assert!(
        program.exists(),
        "{} is missing: run `rt ci` and `python3 tools/build.py {name}` in the repository's root first",
        program.display()
    );
    program
}

/// A folder of a test's own, without what an earlier run left in it.
pub fn folder(test: &str) -> PathBuf {
    let folder = Path::new(env!("CARGO_TARGET_TMPDIR"))
        .join(env!("CARGO_CRATE_NAME"))
        .join(test);
    if folder.exists() {
        fs::remove_dir_all(&folder).expect("the folder of an earlier run");
    }
    fs::create_dir_all(&folder).expect("a new folder");
    folder
}

pub fn stored(name: &str) -> String {
    let path = package().join("expected").join(name).with_extension("txt");
    fs::read_to_string(&path).unwrap_or_else(|error| panic!("{}: {error}", path.display()))
}

/// Names the first line that differs: some texts have hundreds.
pub fn assert_stored(text: &str, name: &str) {
    let stored = stored(name);
    for (number, (line, expected)) in text.lines().zip(stored.lines()).enumerate() {
        assert_eq!(line, expected, "{name}, line {}", number + 1);
    }
    assert!(text == stored, "{name}: {text:?} and {stored:?}");
}

/// Runs a command to its end. It has read its input before it prints, so that its output is read after the input is written.
pub fn run<'a>(command: &mut Command, input: impl Iterator<Item = &'a [u8]>) -> Output {
    let mut child = command
        .stdin(Stdio::piped())
        .stdout(Stdio::piped())
        .stderr(Stdio::piped())
        .spawn()
        .expect("a command that starts");
    let mut stdin = child.stdin.take().expect("a pipe");
    for part in input {
        match stdin.write_all(part) {
            // The command reads no more than it answers for.
            Err(error) if error.kind() == ErrorKind::BrokenPipe => break,
            result => result.expect("an input that is taken"),
        }
    }
    drop(stdin);
    child.wait_with_output().expect("a command that ends")
}

pub fn run_with_name(program: &Path, folder: &Path, name: impl AsRef<OsStr>) -> Output {
    let mut command = Command::new(program);
    run(
        command.current_dir(folder).arg(name),
        std::iter::empty::<&[u8]>(),
    )
}

pub fn run_with_input(program: &Path, image: &[u8]) -> Output {
    run(&mut Command::new(program), [image].into_iter())
}

/// Nothing on standard output and a message that has this in it.
pub fn assert_message(output: &Output, part: &str) {
    assert_eq!(String::from_utf8_lossy(&output.stdout), "");
    let message = String::from_utf8_lossy(&output.stderr);
    assert!(message.contains(part), "{part:?} is not in {message:?}");
    assert!(output.status.code().is_some(), "{}", output.status);
}
