//! The whole program from its start to its end, against `cat`.

use crate::inputs::Pair;
use crate::timing::{in_turns, Times};
use std::fs::File;
use std::path::Path;
use std::process::{Command, Stdio};

/// Times the program and `cat` on the bytes of one input, which are put into a
/// file first. Both read that file and write to nowhere.
pub fn compare(program: &Path, file: &Path, pair: &Pair) -> [Times; 2] {
    let bytes = bytes(pair);
    std::fs::write(file, &bytes).unwrap_or_else(|error| panic!("{}: {error}", file.display()));
    let printed = command(program, file).stdout(Stdio::piped()).output();
    let printed = printed.unwrap_or_else(|error| panic!("{}: {error}", program.display()));
    let lines = String::from_utf8_lossy(&printed.stdout);
    assert!(lines.lines().eq(peer::words::program(&bytes)), "the program prints:\n{lines}");
    let [mut checker, mut cat] =
        [program, Path::new("cat")].map(|program| move || spawn(program, file));
    in_turns(&mut checker, &mut cat)
}

fn spawn(program: &Path, file: &Path) {
    let status = command(program, file).status().expect("it starts");
    assert!(status.success(), "{}: {status}", program.display());
}

fn command(program: &Path, file: &Path) -> Command {
    let mut command = Command::new(program);
    command.stdin(File::open(file).expect("the input's file")).stdout(Stdio::null());
    command
}

fn bytes((table, proposal): &Pair) -> Vec<u8> {
    let lengths = [table.len() as i32, proposal.len() as i32];
    let words = lengths.iter().chain(table).chain(proposal);
    words.flat_map(|word| word.to_le_bytes()).collect()
}
