//! The programs second-netrun, second-netpage and second-looked, which have names of their own
//! beside the proved ones.

use generate::examples::all;
use std::io::Write;
use std::process::{Command, Stdio};

const NETRUN: &str = env!("CARGO_BIN_EXE_second-netrun");
const NETPAGE: &str = env!("CARGO_BIN_EXE_second-netpage");
const LOOKED: &str = env!("CARGO_BIN_EXE_second-looked");

/// What a program prints for the file of an example.
fn printed(program: &str, name: &str) -> String {
    let example = all().into_iter().find(|example| example.name == name);
    let example = example.expect("it is among the examples");
    let mut program = Command::new(program)
        .stdin(Stdio::piped())
        .stdout(Stdio::piped())
        .spawn()
        .expect("it starts");
    let mut stdin = program.stdin.take().expect("its standard input");
    stdin.write_all(&example.file).expect("it reads");
    drop(stdin);
    let output = program.wait_with_output().expect("it ends");
    assert!(output.status.success());
    String::from_utf8_lossy(&output.stdout).into_owned()
}

#[test]
fn netrun_prints_the_run_of_document_01() {
    let text = "pick 0 done 1 1\npick 1 no 11\ntable 1 CARD 1\nrow RIG1 38\n";
    assert_eq!(printed(NETRUN, "k-printed-run"), text);
}

#[test]
fn netpage_prints_the_page_of_that_run() {
    let text = [
        "table 1 CARD 1\n",
        "RIG1                    38                          \n",
        "                        38                          \n",
    ];
    assert_eq!(printed(NETPAGE, "k-printed-run"), text.concat());
}

/// The one T has a formal and then a variable that nothing has bound.
#[test]
fn looked_prints_the_looks_at_two_rows_and_at_none() {
    assert_eq!(printed(LOOKED, "12-template"), "looked 0 0 0 2- 2-\nlooked 0 0 1\n");
}

#[test]
fn a_refused_file_prints_one_line() {
    for program in [NETRUN, NETPAGE, LOOKED] {
        assert_eq!(printed(program, "07-kind"), "load 7 at 1\n");
    }
}

#[test]
fn they_say_by_their_own_names_how_to_call_them() {
    for (program, usage) in [
        (NETRUN, "usage: second-netrun < FILE\n"),
        (NETPAGE, "usage: second-netpage < FILE\n"),
        (LOOKED, "usage: second-looked < FILE\n"),
    ] {
        let output = Command::new(program).arg("a.net").output().expect("it starts");
        assert_eq!(output.status.code(), Some(2));
        assert!(output.stdout.is_empty());
        assert!(String::from_utf8_lossy(&output.stderr).starts_with(usage));
    }
}
