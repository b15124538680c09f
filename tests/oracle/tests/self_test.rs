//! The comparisons, run against the oracle's own programs and against programs that are wrong.

use std::fs::{self, Permissions};
use std::os::unix::fs::PermissionsExt;
use std::path::Path;
use std::process::{Command, Output};

fn compare(program: &str, count: &str) -> Output {
    compare_by(env!("CARGO_BIN_EXE_compare"), program, count)
}

fn compare_sheets(program: &str, count: &str) -> Output {
    compare_by(env!("CARGO_BIN_EXE_compare-sheets"), program, count)
}

fn compare_by(comparison: &str, program: &str, count: &str) -> Output {
    Command::new(comparison)
        .args([program, "--seed", "7", "--count", count])
        .output()
        .expect("the comparison runs")
}

#[test]
fn the_oracle_agrees_with_itself() {
    for output in [
        compare(env!("CARGO_BIN_EXE_oracle-plan"), "300"),
        compare_sheets(env!("CARGO_BIN_EXE_oracle-sheets"), "100"),
    ] {
        let told = String::from_utf8(output.stdout).unwrap();
        assert!(output.status.success(), "{told}");
        assert!(told.ends_with(" cases agree\n"), "{told}");
    }
}

#[test]
fn another_program_is_found_out() {
    for program in ["cat", "true", "no-such-program"] {
        for output in [compare(program, "10"), compare_sheets(program, "10")] {
            assert_eq!(output.status.code(), Some(1), "{program}");
        }
    }
}

/// A script that may run one of the oracle's own programs as `oracle`.
fn script(name: &str, oracle: &str, commands: &str) -> String {
    let path = Path::new(env!("CARGO_TARGET_TMPDIR")).join(name);
    let lines = format!("#!/bin/sh\noracle() {{ '{oracle}' \"$@\"; }}\n{commands}\n");
    fs::write(&path, lines).expect("a file");
    fs::set_permissions(&path, Permissions::from_mode(0o755)).expect("a script");
    path.to_str().expect("a path of text").to_string()
}

/// Programs that print what they should and are wrong on standard error: they say nothing of a job
/// refused with 5, or something of another, or name another divisor.
#[test]
fn other_words_on_standard_error_are_found_out() {
    for (name, commands) in [
        ("silent", "oracle 2>/dev/null"),
        ("talkative", "oracle; echo plan >&2"),
        ("half", "{ oracle 2>&1 >&3 | sed 's/ 6$/ 3/' >&2; } 3>&1"),
    ] {
        let program = script(name, env!("CARGO_BIN_EXE_oracle-plan"), commands);
        let output = compare(&program, "10");
        let told = String::from_utf8(output.stdout).unwrap();
        assert_eq!(output.status.code(), Some(1), "{name}");
        assert!(told.contains("standard error, line 1\n"), "{name}: {told}");
    }
}

/// Programs with wrong sheets: columns moved by one, a last page that is not filled up, no page but the
/// first, other question marks, a caption on the blank lines too; one that takes every number for a
/// dimension, one that looks at the dimension first, and one with a word on standard error.
#[test]
fn other_sheets_are_found_out() {
    for (name, commands) in [
        ("moved", r#"oracle "$@" | sed 's/^ \(.*\)$/\1 /'"#),
        ("not_filled", r#"oracle "$@" | grep -v '^ *$'"#),
        ("first_page", r#"oracle "$@" | head -n 50"#),
        ("marks", r#"oracle "$@" | tr '?' '.'"#),
        (
            "blank_lines",
            r#"oracle "$@" | sed 's/^\( \{34\}\) \{10\}\( \{28\}\)$/\1Casting 17\2/'"#,
        ),
        (
            "any_dimension",
            r#"case $1 in ??*) set -- 1 "$2" ;; esac; oracle "$@""#,
        ),
        (
            "dimension_first",
            r#"case $1 in ?) oracle "$@" ;; *) echo refused 7 0 ;; esac"#,
        ),
        ("word", r#"oracle "$@"; echo page >&2"#),
    ] {
        let program = script(name, env!("CARGO_BIN_EXE_oracle-sheets"), commands);
        let output = compare_sheets(&program, "10");
        assert_eq!(output.status.code(), Some(1), "{name}");
    }
}
