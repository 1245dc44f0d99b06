//! The two programs, run as a person runs them.

use std::io::Write;
use std::process::{Child, Command, Output, Stdio};

const BUNDLE: &str = env!("CARGO_BIN_EXE_bundle");
const REFERENCE: &str = env!("CARGO_BIN_EXE_reference");

/// Starts a program with pipes to and from it.
fn started(program: &str, arguments: &[&str]) -> Child {
    let mut command = Command::new(program);
    command
        .args(arguments)
        .stdin(Stdio::piped())
        .stdout(Stdio::piped())
        .stderr(Stdio::piped());
    command.spawn().expect("the program starts")
}

/// Runs a program with these bytes on standard input.
fn run(program: &str, arguments: &[&str], input: &[u8]) -> Output {
    let mut child = started(program, arguments);
    // a program that looks only at its arguments does not read
    let _ = child.stdin.take().expect("a pipe").write_all(input);
    child.wait_with_output().expect("the program ends")
}

fn status(output: &Output) -> i32 {
    output.status.code().expect("no signal ended it")
}

fn errors(output: &Output) -> String {
    String::from_utf8_lossy(&output.stderr).into_owned()
}

const TEXT: &str = "open n 8, f 1, k 2, balances 10 3
ack 0 (0, 1, 4, 1)
ack 1 (0, 1, 4, 1)
ack 2 (0, 1, 5, 1)
ack 3 (0, 1, 5, 1)
ack 4 (0, 1, 6, 1)
ack 5 (0, 1, 6, 1)
ack 6 (0, 1, 7, 1)
";

#[test]
fn pack_unpack_show_and_print() {
    let packed = run(BUNDLE, &["pack"], TEXT.as_bytes());
    assert_eq!((status(&packed), errors(&packed)), (0, String::new()));
    let unpacked = run(BUNDLE, &["unpack"], &packed.stdout);
    assert_eq!((status(&unpacked), unpacked.stdout), (0, TEXT.as_bytes().to_vec()));
    let shown = run(BUNDLE, &["show"], &packed.stdout);
    assert_eq!(status(&shown), 0);
    assert_eq!(shown.stdout, reference::written::shown(&packed.stdout).into_bytes());
    let printed = run(REFERENCE, &[], &packed.stdout);
    assert_eq!((status(&printed), errors(&printed)), (0, String::new()));
    let due = "1 N\n2 N\n3 N\n4 N\n5 N\n6 N\n7 P 0 1 4 1\n= 0 10 0\n= 1 3 0\n";
    assert_eq!(printed.stdout, due.as_bytes());
}

/// `-` in the place of a file is standard input, as no file is.
#[test]
fn a_dash_is_standard_input() {
    let packed = run(BUNDLE, &["pack", "-"], TEXT.as_bytes());
    assert_eq!((status(&packed), errors(&packed)), (0, String::new()));
    assert_eq!(packed.stdout, run(BUNDLE, &["pack"], TEXT.as_bytes()).stdout);
    for (program, without, with) in [
        (BUNDLE, &["unpack"][..], &["unpack", "-"][..]),
        (BUNDLE, &["show"], &["show", "-"]),
        (REFERENCE, &[], &["-"]),
    ] {
        let due = run(program, without, &packed.stdout);
        let output = run(program, with, &packed.stdout);
        assert_eq!((status(&output), errors(&output)), (0, String::new()), "{with:?}");
        assert!(output.stdout.len() > 40, "{with:?}");
        assert_eq!(output.stdout, due.stdout, "{with:?}");
    }
}

/// A program, its arguments, its input, the status it ends with, and a part of the message.
type Failing = (&'static str, &'static [&'static str], &'static [u8], i32, &'static str);

const FAILING: &[Failing] = &[
    (BUNDLE, &[], b"", 2, "usage: ./bundle.sh pack [FILE]"),
    (
        BUNDLE,
        &["mend"],
        b"",
        2,
        "bundle: `mend` is not one of its words\nusage: ./bundle.sh pack [FILE]",
    ),
    (
        BUNDLE,
        &["evidence", "a", "b"],
        b"",
        2,
        "bundle: `evidence` asks the proved library: ./bundle.sh does it\nusage: ./bundle.sh pack [FILE]",
    ),
    (
        BUNDLE,
        &["pack", "a", "b"],
        b"",
        2,
        "bundle: one file at a time, and these are 2\nusage: ./bundle.sh pack [FILE]",
    ),
    (
        BUNDLE,
        &["pack"],
        b"open n 1, f 0, k 1\nslop",
        1,
        "<stdin>:2: unknown word `slop`",
    ),
    (
        BUNDLE,
        &["pack"],
        b"open n 1, f 0, k 1\n# \xff",
        1,
        "<stdin>:2: a byte that is not UTF-8; save the text as UTF-8, or, if it is a bundle, show or unpack it",
    ),
    (
        BUNDLE,
        &["pack", "-"],
        b"open n 1, f 0, k 1\nslop",
        1,
        "<stdin>:2: unknown word `slop`",
    ),
    (BUNDLE, &["unpack", "-"], b"", 1, "<stdin>: refused with 13 at entry 0"),
    (
        BUNDLE,
        &[],
        b"",
        2,
        "Standard input is read if no file is named, or `-`.",
    ),
    (
        BUNDLE,
        &["pack", "no/such.page"],
        b"",
        1,
        "no/such.page: No such file or directory (os error 2); name a file that can be read, or - for standard input",
    ),
    (
        BUNDLE,
        &["unpack"],
        TEXT.as_bytes(),
        1,
        "<stdin>: refused with 13 at entry 0; this looks like the text form of a bundle; pack it first",
    ),
    (
        BUNDLE,
        &["unpack"],
        b"",
        1,
        "<stdin>: refused with 13 at entry 0; `./bundle.sh show` says what is wrong",
    ),
    (BUNDLE, &["unpack", "no/such.bundle"], b"", 1, "no/such.bundle: "),
    (BUNDLE, &["show", "."], b"", 1, ".: "),
    (
        REFERENCE,
        &["a", "b"],
        b"",
        2,
        "usage: reference [FILE]; standard input is read if no file is named, or `-`",
    ),
    (REFERENCE, &["no/such.bundle"], b"", 1, "no/such.bundle: "),
    (REFERENCE, &["."], b"", 1, ".: "),
];

#[test]
fn what_goes_wrong_is_said() {
    for (program, arguments, input, due, part) in FAILING {
        let output = run(program, arguments, input);
        assert_eq!(status(&output), *due, "{arguments:?}");
        assert!(errors(&output).contains(part), "{arguments:?}: {}", errors(&output));
        assert!(output.stdout.is_empty(), "{arguments:?}");
    }
}

#[test]
fn help_and_version() {
    let usage = run(BUNDLE, &[], b"");
    assert_eq!(status(&usage), 2);
    for word in ["--help", "-h"] {
        let output = run(BUNDLE, &[word], b"");
        assert_eq!((status(&output), errors(&output)), (0, String::new()), "{word}");
        assert_eq!(output.stdout, usage.stderr, "{word}");
    }
    let output = run(BUNDLE, &["--version"], b"");
    assert_eq!((status(&output), errors(&output)), (0, String::new()));
    let due = format!("saplull {}\n", env!("CARGO_PKG_VERSION"));
    assert_eq!(output.stdout, due.as_bytes());
}

/// The text form is no bundle, and is shown as what it is; a bundle is shown without a word.
#[test]
fn a_text_that_is_shown() {
    let output = run(BUNDLE, &["show"], TEXT.as_bytes());
    let due = "<stdin>: warning: this looks like the text form of a bundle; pack it first: ./bundle.sh pack\n";
    assert_eq!((status(&output), errors(&output)), (0, due.to_string()));
    assert_eq!(output.stdout, reference::written::shown(TEXT.as_bytes()).into_bytes());
    let packed = run(BUNDLE, &["pack"], TEXT.as_bytes()).stdout;
    assert_eq!(errors(&run(BUNDLE, &["show"], &packed)), "");
}

/// An opening that is refused is packed, and its line is told.
#[test]
fn a_warning() {
    let text = b"\xef\xbb\xbf# five seats\nopen n 5, f 1, k 2, balances 10 5\n";
    let output = run(BUNDLE, &["pack"], text);
    let why = "the opening is refused with 1: f is 1, and 5 times f is not below n, which is 5; it is packed as it is";
    assert_eq!(
        (status(&output), errors(&output)),
        (0, format!("<stdin>:2: warning: {why}\n"))
    );
    assert_eq!(run(REFERENCE, &[], &output.stdout).stdout, b"F 1 0\n");
    let output = run(BUNDLE, &["pack"], b"open n 5, f 1, k 2, balances 10 5\nquestion (0");
    let due = "<stdin>:2: a `(` is not closed in this line: put a `)` in, or take it out\n";
    assert_eq!(
        (status(&output), errors(&output), output.stdout),
        (1, due.to_string(), vec![])
    );
}

/// What a shell does with the streams of a program before it starts it, and what the program says of that.
const STREAMS: &[(&str, &str)] = &[
    (">/dev/full", "standard output: No space left on device"),
    ("<.", "<stdin>: Is a directory"),
];

#[test]
fn streams_that_fail() {
    let packed = run(BUNDLE, &["pack"], TEXT.as_bytes()).stdout;
    for (redirection, due) in STREAMS {
        for (program, word) in [(BUNDLE, "show"), (BUNDLE, "unpack"), (REFERENCE, "-")] {
            let line = format!("exec \"$0\" {word} {redirection}");
            let output = run("sh", &["-c", &line, program], &packed);
            assert_eq!(status(&output), 1, "{word} {redirection}");
            let said = errors(&output);
            assert!(
                said.starts_with(due) && said.lines().count() == 1,
                "{word} {redirection}: {said}"
            );
            assert!(output.stdout.is_empty(), "{word} {redirection}");
        }
        let line = format!("exec \"$0\" --help {redirection}");
        let output = run("sh", &["-c", &line, BUNDLE], b"");
        assert_eq!(status(&output), i32::from(due.starts_with("standard")), "{redirection}");
    }
}

/// /dev/null is an input with nothing in it, and a place for what nobody wants, opened one way or both.
#[test]
fn nothing_to_read_and_nobody_to_write_to() {
    for (from, to) in [("</dev/null", ">/dev/null"), ("<>/dev/null", "1<>/dev/null")] {
        let line = format!("exec \"$0\" {from}");
        let output = run("sh", &["-c", &line, REFERENCE], b"");
        assert_eq!((status(&output), errors(&output)), (0, String::new()), "{from}");
        assert_eq!(output.stdout, b"F 13 0\n", "{from}");
        let line = format!("exec \"$0\" pack {to}");
        let output = run("sh", &["-c", &line, BUNDLE], TEXT.as_bytes());
        assert_eq!((status(&output), errors(&output)), (0, String::new()), "{to}");
    }
}

#[test]
fn a_bundle_that_is_too_long() {
    let longest = run(
        BUNDLE,
        &["pack"],
        b"open n 1, f 0, k 1, balances 1\nrepeat 999 request (0, 1, 1, 0)\n",
    )
    .stdout;
    for more in [1, 100_000] {
        let bytes = [longest.clone(), vec![0; more]].concat();
        assert_eq!(run(REFERENCE, &[], &bytes).stdout, b"F 15 0\n");
    }
}

/// A program whose output nobody reads ends with 1 and without a word; with no panic, which would end it with 101.
#[test]
fn a_closed_pipe() {
    let mut text = TEXT.to_string();
    text.push_str("repeat 900 question 0\n");
    let packed = run(BUNDLE, &["pack"], text.as_bytes()).stdout;
    for (program, arguments) in [(BUNDLE, &["show"][..]), (BUNDLE, &["unpack"]), (REFERENCE, &[])] {
        let mut child = started(program, arguments);
        drop(child.stdout.take());
        child
            .stdin
            .take()
            .expect("a pipe")
            .write_all(&packed)
            .expect("the program reads");
        let output = child.wait_with_output().expect("the program ends");
        assert_eq!(status(&output), 1, "{arguments:?}");
        assert!(!errors(&output).contains("panic"), "{arguments:?}: {}", errors(&output));
    }
}
