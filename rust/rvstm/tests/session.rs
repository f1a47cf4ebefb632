//! The client of `rvstm chain`, over the program that RVSTM names, and over scripts that answer otherwise.

use std::io::ErrorKind;
use std::path::Path;
use std::{env, fs};

use rvstm::{Answer, Session};

/// The example of `docs/formats.md`, with its answers.
#[test]
fn the_example_of_the_page_is_answered() {
    let program = match env::var_os("RVSTM") {
        Some(program) => program,
        None => return eprintln!("skipped: RVSTM names no program"),
    };
    let file = Path::new(env!("CARGO_MANIFEST_DIR")).join("../../examples/counter/counter.elf");
    let name = "07623d8ffdb2861eb07ce924f631f5b2bb2725cf80304e36b0a23ea1fafb0686\n";
    let key = format!("{:064}", 1);
    let frame = format!("rvblock 1\nprogram 0 {name}call 0 1000 {key}\n");
    let done = |text: &str| Answer::Done(text.as_bytes().to_vec());
    let mut session = Session::start(program, ["--brief"]).unwrap();
    assert_eq!(session.ask_with("frame", frame.as_bytes()).unwrap(), Answer::Refused("frame NoProgram 3".into()));
    assert_eq!(session.ask_with("program", &fs::read(file).unwrap()).unwrap(), done(name));
    let receipt = format!("call 0 returned gas 639 pc 00010034 out -\nwrite 0 {key} 01000000\nend\n");
    assert_eq!(session.ask_with("frame", frame.as_bytes()).unwrap(), done(&receipt));
    assert_eq!(session.ask(&format!("get {key}")).unwrap(), done("value 01000000\n"));
    assert_eq!(session.ask("a\nb").unwrap_err().kind(), ErrorKind::InvalidInput);
    // A line of another form ends the process; its body may not be read to its end.
    let refused = session.ask_with("frames", &vec![0; 1 << 20]).unwrap();
    assert_eq!(refused, Answer::Refused("request BadLine 1".into()));
    assert_eq!(session.ask("state").unwrap_err().kind(), ErrorKind::UnexpectedEof);
    assert_eq!(session.end().unwrap().code(), Some(1));
}

/// What comes of a request that is answered so.
fn answered(answer: &str) -> Result<Answer, ErrorKind> {
    let program = concat!(env!("CARGO_MANIFEST_DIR"), "/tests/answering");
    Session::start(program, [answer]).unwrap().ask("state").map_err(|error| error.kind())
}

#[test]
fn an_answer_is_read_whole_or_is_an_error() {
    assert_eq!(answered("ok 3\\na b"), Ok(Answer::Done(b"a b".to_vec())));
    assert_eq!(answered("failed seq Memory 1\\n"), Ok(Answer::Failed("seq Memory 1".into())));
    for cut in ["", "ok 2", "ok 3\\nab"] {
        assert_eq!(answered(cut), Err(ErrorKind::UnexpectedEof), "{cut}");
    }
    for other in ["okay 1\\na", "ok -1\\n", "ok \\377\\n", "ok 18446744073709551616\\n"] {
        assert_eq!(answered(other), Err(ErrorKind::InvalidData), "{other}");
    }
    assert_eq!(Session::start("/no/program", [""; 0]).unwrap_err().kind(), ErrorKind::NotFound);
}
