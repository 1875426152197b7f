//! The examples, run as programs. `cargo test` builds them.

use std::env;
use std::fs;
use std::io::Write;
use std::path::{Path, PathBuf};
use std::process::{Command, Output, Stdio};

/// The program of an example, beside the folder of this test's program.
fn example(name: &str) -> Command {
    let test = env::current_exe().expect("a test knows its program");
    let folder = test.parent().and_then(Path::parent).expect("it is in target/PROFILE/deps");
    let program = folder.join("examples").join(name);
    assert!(program.exists(), "{} is not built: run `cargo build --examples`", program.display());
    Command::new(program)
}

/// A file of this test, with this text.
fn file(name: &str, text: &str) -> PathBuf {
    let path = Path::new(env!("CARGO_TARGET_TMPDIR")).join(name);
    fs::write(&path, text).expect("the folder for tests can be written");
    path
}

fn shown(output: &Output) -> (Option<i32>, &str, &str) {
    let text = |bytes| std::str::from_utf8(bytes).expect("examples write UTF-8");
    (output.status.code(), text(&output.stdout), text(&output.stderr))
}

fn tree_lines(input: &[u8]) -> Output {
    answers_to(input, example("tree_lines"))
}

/// What a program writes that reads this.
fn answers_to(input: &[u8], mut program: Command) -> Output {
    let mut child = program
        .stdin(Stdio::piped())
        .stdout(Stdio::piped())
        .stderr(Stdio::piped())
        .spawn()
        .expect("the example runs");
    let mut stdin = child.stdin.take().expect("it has a pipe");
    stdin.write_all(input).expect("it reads all");
    drop(stdin);
    child.wait_with_output().expect("it ends")
}

#[test]
fn outline() {
    let path = file("outline.md", "# *a*\n### b {#c}\n");
    let output = example("outline").arg(path).output().unwrap();
    assert_eq!(shown(&output), (Some(0), "*a*\n    b #c\n", ""));
    let output = example("outline").arg("no/such/file").output().unwrap();
    let wanted = "outline: no/such/file: No such file or directory (os error 2)\n";
    assert_eq!(shown(&output), (Some(2), "", wanted));
}

#[test]
fn link_checker() {
    let text = "[one], [two][], [x][three], ![x][four], [a [b]][five], `[x][six]`.\n\
                A call[^1] of [text][^1], [seven\neight][], [`c`][] and \\[e][nine\\].\n\n\
                [one]: /1\n[Text]: /t\n[`c`]: /c\n[unused]: /u\n[SEVEN EIGHT]: /78\n\n[^1]: note\n";
    let path = file("links.md", text);
    let output = example("link_checker").arg(&path).output().unwrap();
    let name = path.display();
    let wanted = format!(
        "{name}:1: [two] has no definition\n{name}:1: [three] has no definition\n\
         {name}:1: [four] has no definition\n{name}:1: [five] has no definition\n\
         {name}:8: nothing refers to [unused]\n"
    );
    assert_eq!(shown(&output), (Some(1), wanted.as_str(), ""));
    let text = "[a] `b` [d\n] [ E ][]\n\n[a]: c\n[ d ]: f\n[e]: g\n";
    let output = example("link_checker").arg(file("none.md", text)).output();
    assert_eq!(shown(&output.unwrap()), (Some(0), "", ""));
}

#[test]
fn lines_of_a_tree() {
    let text = "# a {#x}\n[b]: </c \"d\">\n[e]: /c \"d\"\n";
    let input = format!("64 {}\n{text}0 1\n\u{1}", text.len());
    let lines = r##"{"kind":"Root","depth":0,"start":0,"end":35}
{"kind":"Heading","depth":1,"start":0,"end":9,"level":1,"id":"x","classes":[],"attributes":[]}
{"kind":"Text","depth":2,"start":2,"end":3,"escaped":false}
{"definition":"b","destination":"/c \"d\"","title":null,"start":9,"end":22}
{"definition":"e","destination":"/c","title":"d","start":23,"end":34}
"##;
    let second = r#"{"kind":"Root","depth":0,"start":0,"end":1}
{"kind":"Paragraph","depth":1,"start":0,"end":1}
{"kind":"Text","depth":2,"start":0,"end":1,"escaped":false}
"#;
    let wanted = format!("0 {}\n{lines}0 {}\n{second}", lines.len(), second.len());
    assert_eq!(shown(&tree_lines(input.as_bytes())), (Some(0), wanted.as_str(), ""));
}

#[test]
fn statuses() {
    let output = tree_lines(b"0 2\na\xff65536 1\n\xff1 0\n");
    assert_eq!(shown(&output), (Some(0), "2 0\n3 0\n3 0\n", ""));
    for input in ["\n", "x 1\n", "1\n", "0 x\n", "0 1 1\n", "-1 1\n", "0 2\na"] {
        assert_eq!(tree_lines(input.as_bytes()).status.code(), Some(2), "{input:?}");
    }
}

/// There is memory for the records, and too little for the work of the archive: 48 bytes for each of 4 million nodes.
#[test]
fn refused_memory() {
    let text = "*a".repeat(2_000_000);
    let input = format!("0 {}\n{text}0 0\n", text.len());
    let mut limited = Command::new("sh");
    limited
        .args(["-c", "ulimit -v 150000 && exec \"$0\""])
        .arg(example("tree_lines").get_program());
    let output = answers_to(input.as_bytes(), limited);
    let empty = "{\"kind\":\"Root\",\"depth\":0,\"start\":0,\"end\":0}\n";
    assert_eq!(shown(&output), (Some(0), format!("1 0\n0 {}\n{empty}", empty.len()).as_str(), ""));
}

#[test]
fn bench() {
    let path = file("bench.md", "# a\n\nb\n\nc\n");
    let output = example("bench").arg(&path).args(["3", "0"]).output().unwrap();
    let (status, lines, errors) = shown(&output);
    assert_eq!((status, errors), (Some(0), ""));
    assert!(lines.starts_with("10 bytes, 7 nodes, best of 3 runs: "), "{lines}");
    assert!(lines.contains("\n3 documents, 9 nodes, best of 3 runs: "), "{lines}");
    for words in [["0", "0"], ["x", "0"], ["1", "1"]] {
        let output = example("bench").arg(&path).args(words).output().unwrap();
        assert_eq!(output.status.code(), Some(2), "{words:?}");
    }
}
