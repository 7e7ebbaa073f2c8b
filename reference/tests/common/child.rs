//! Child processes.

use std::io::Write;
use std::process::{Command, Stdio};

/// What `command` writes for `input`. It must succeed.
pub fn written(command: &mut Command, input: &[u8]) -> String {
    let mut child = command
        .stdin(Stdio::piped())
        .stdout(Stdio::piped())
        .spawn()
        .unwrap_or_else(|error| panic!("{command:?}: {error}"));
    let mut stdin = child.stdin.take().expect("piped");
    // A program that stops reading at its limit leaves the rest to nobody.
    let _ = stdin.write_all(input);
    drop(stdin);
    let output = child.wait_with_output().expect("the child ran");
    assert!(output.status.success(), "{command:?}: {}", output.status);
    String::from_utf8(output.stdout).expect("ASCII")
}
