//! The program itself, as others call it.

use std::io::Write;
use std::process::{Command, Stdio};

fn printed(words: &[&str], input: &[u8]) -> String {
    let mut command = Command::new(env!("CARGO_BIN_EXE_shim-model"));
    let mut child = command
        .args(words)
        .stdin(Stdio::piped())
        .stdout(Stdio::piped())
        .spawn()
        .expect("the program starts");
    child
        .stdin
        .take()
        .expect("piped")
        .write_all(input)
        .expect("the program reads");
    let output = child.wait_with_output().expect("the program ends");
    assert!(output.status.success());
    String::from_utf8(output.stdout).expect("ASCII")
}

#[test]
fn built_ins_and_models() {
    let text = printed(&["builtin", "1"], b"");
    assert_eq!(text.len(), 71);
    assert_eq!(printed(&["builtin", "16"], b""), "refused 12 at 0\n");
}

#[test]
fn model_reads_standard_input() {
    let text = printed(&["builtin", "1"], b"");
    assert_eq!(printed(&["model"], text.as_bytes()), text);
    assert_eq!(printed(&["model"], b"model"), "refused 2 at 5\n");
}

#[test]
fn comparing_and_running() {
    assert_eq!(printed(&["compare", "0", "1"], b""), "1 first stronger\n");
    assert_eq!(
        printed(&["run", "full", "1", "15", "ssl0l"], b""),
        "out s0sl0l\nwritten 6\nfences 2\n"
    );
    assert_eq!(
        printed(&["run", "2", "1", "15", ""], b""),
        "refused 12 at 0\n"
    );
}

#[test]
fn machines_by_file() {
    let path = |name: &str| format!("{}/models/{name}.model", env!("CARGO_MANIFEST_DIR"));
    let told = printed(
        &["machine", "sparing", &path("both-up"), &path("both-target")],
        b"",
    );
    assert_eq!(told, "situations 6016\nstates 1488\nrefused 8 at 0\n");
}

#[test]
fn images_in_hexadecimal() {
    let told = printed(&["image", "full", "1", "15"], b"");
    assert_eq!(told.len(), 2 * 1_024 + 32);
    assert!(told.starts_with("0000010103010154534f00"));
}

/// An accepted drawing's image is no text; only refusals are shown here.
#[test]
fn drawings_read_standard_input() {
    assert_eq!(printed(&["draw"], b"digraph"), "refused 10 at 0\n");
    assert_eq!(printed(&["undraw"], b"digraph"), "refused 2 at 7\n");
    // `full` is the second name, and then the way is missing.
    let nameless = b"digraph shim {\nlabel=\"A full 0 0\";\n";
    assert_eq!(printed(&["undraw"], nameless), "refused 2 at 29\n");
}
