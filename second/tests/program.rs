//! The program itself: its listing, and words it does not know.

use second::driver::worked::bytes;
use std::io::Write;
use std::process::{Command, Stdio};

#[test]
fn frames_lists_standard_input() {
    let mut child = Command::new(env!("CARGO_BIN_EXE_second"))
        .arg("frames")
        .stdin(Stdio::piped())
        .stdout(Stdio::piped())
        .spawn()
        .unwrap();
    let stream = bytes("00 F0 02 00 05 F2 02 00 F2 00 F1 F0 02 F0 02 00 06 00 02 F1");
    child.stdin.take().unwrap().write_all(&stream).unwrap();
    let output = child.wait_with_output().unwrap();
    assert!(output.status.success());
    let expected = "frame 10 5 1\nrefused 20 at 13\nframe 19 6 0\nskipped 1\nend 20 outside\n";
    assert_eq!(String::from_utf8(output.stdout).unwrap(), expected);
}

#[test]
fn unknown_words_are_told() {
    for words in [&["--sed", "4"][..], &["--seed"], &["--scale", "0"]] {
        let output = Command::new(env!("CARGO_BIN_EXE_second"))
            .args(words)
            .output()
            .unwrap();
        assert_eq!(output.status.code(), Some(2));
        assert!(String::from_utf8(output.stderr).unwrap().contains("usage"));
    }
}
