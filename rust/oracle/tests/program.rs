//! The program answers line by line, and refuses what it cannot read.

use std::io::Write;
use std::process::{Command, Output, Stdio};

fn run(arguments: &[&str], input: &[u8]) -> Output {
    let mut child = Command::new(env!("CARGO_BIN_EXE_oracle"))
        .args(arguments)
        .stdin(Stdio::piped())
        .stdout(Stdio::piped())
        .stderr(Stdio::piped())
        .spawn()
        .unwrap();
    child.stdin.take().unwrap().write_all(input).unwrap();
    child.wait_with_output().unwrap()
}

#[test]
fn each_line_has_an_answer() {
    let output = run(
        &[],
        b"chunk-size\tdefault\t0\t\"0\\r\\n\"\nheaders\tdefault\t2\t\"\\n\"\n\
          headers\tdefault\t1\t\"A b\"",
    );
    assert_eq!(
        String::from_utf8_lossy(&output.stdout),
        "complete 3 size=0\ncomplete 1 headers=[] untouched=2\n\
         error HeaderName at 1 headers=[] untouched=1\n"
    );
    assert!(output.stderr.is_empty());
    assert_eq!(output.status.code(), Some(0));
}

#[test]
fn a_bad_line_keeps_its_place() {
    let output = run(
        &[],
        b"\nchunk-size\tdefault\t0\t\"a\"\nheaders\tdefault\t0\t\"\xe9\"\n",
    );
    assert_eq!(
        String::from_utf8_lossy(&output.stdout),
        "refused\nincomplete\nrefused\n"
    );
    let complaints = String::from_utf8_lossy(&output.stderr);
    assert!(
        complaints.contains("oracle: line 1: a query has 4 columns"),
        "{complaints}"
    );
    assert!(
        complaints.contains("oracle: line 3: byte 20 is no ASCII"),
        "{complaints}"
    );
    assert_eq!(output.status.code(), Some(1));
}

#[test]
fn help_is_given_and_other_arguments_refused() {
    let help = run(&["--help"], b"");
    for command in ["oracle record", "oracle sample"] {
        assert!(String::from_utf8_lossy(&help.stdout).contains(command));
    }
    assert_eq!(help.status.code(), Some(0));

    for arguments in [&["-h"][..], &["record", "twice"]] {
        let refused = run(arguments, b"");
        assert!(String::from_utf8_lossy(&refused.stderr).contains("mean nothing; write"));
        assert!(refused.stdout.is_empty());
        assert_eq!(refused.status.code(), Some(2));
    }
}
