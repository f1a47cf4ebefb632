//! A session of `rvstm chain`: requests and answers over two pipes.

use std::ffi::OsStr;
use std::io::{self, BufRead, BufReader, Read, Write};
use std::process::{Child, ChildStdin, ChildStdout, Command, ExitStatus, Stdio};

/// A process `rvstm chain`, which runs block after block over a storage of its own. `docs/formats.md` (Sessions) has the requests
/// and their answers. When the session is dropped, the input of the process ends, and so does the process.
///
/// ```no_run
/// use rvstm::{Answer, Session};
///
/// # fn main() -> std::io::Result<()> {
/// let mut session = Session::start("rvstm", ["--brief", "--store", "ledger.db"])?;
/// if let Answer::Done(name) = session.ask_with("program", &std::fs::read("counter.elf")?)? {
///     let name = String::from_utf8_lossy(&name);
///     let key = "0".repeat(64);
///     let block = format!("rvblock 1\nprogram 0 {name}call 0 1000 {key}\n");
///     println!("{:?}", session.ask_with("frame", block.as_bytes())?);
///     println!("{:?}", session.ask(&format!("get {key}"))?);
/// }
/// session.end()?;
/// # Ok(())
/// # }
/// ```
#[derive(Debug)]
pub struct Session {
    process: Child,
    /// None once the input has ended.
    requests: Option<ChildStdin>,
    answers: BufReader<ChildStdout>,
}

/// The answer to a request.
#[derive(Clone, Debug, PartialEq, Eq)]
pub enum Answer {
    /// The request is done. These are the bytes after the answer's line.
    Done(Vec<u8>),
    /// The request has a fault, on each machine. The text has the words after `refused`, such as `frame NoProgram 3`.
    Refused(String),
    /// This machine could not do the request. The text has the words after `failed`, such as `seq Memory 1`.
    Failed(String),
}

impl Session {
    /// Starts `PROGRAM chain OPTIONS`. Its standard error is this process's.
    pub fn start<I>(program: impl AsRef<OsStr>, options: I) -> io::Result<Session>
    where
        I: IntoIterator,
        I::Item: AsRef<OsStr>,
    {
        let mut command = Command::new(program);
        let mut process = command.arg("chain").args(options).stdin(Stdio::piped()).stdout(Stdio::piped()).spawn()?;
        let requests = process.stdin.take();
        let answers = BufReader::new(process.stdout.take().expect("standard output is a pipe"));
        Ok(Session { process, requests, answers })
    }

    /// Sends a request without a body, such as `state`, and reads its answer. If the process has ended, or ends before its answer
    /// is whole, the error is [`io::ErrorKind::UnexpectedEof`].
    pub fn ask(&mut self, request: &str) -> io::Result<Answer> {
        self.exchange(request, &format!("{request}\n"), &[])
    }

    /// Sends a request with a body, and reads its answer. The request is the line without its LENGTH, such as `frame`.
    pub fn ask_with(&mut self, request: &str, body: &[u8]) -> io::Result<Answer> {
        self.exchange(request, &format!("{request} {}\n", body.len()), body)
    }

    /// Ends the session, and waits for the process. Returns its status.
    pub fn end(mut self) -> io::Result<ExitStatus> {
        self.requests = None;
        self.process.wait()
    }

    fn exchange(&mut self, request: &str, line: &str, body: &[u8]) -> io::Result<Answer> {
        if request.contains('\n') {
            return Err(io::Error::new(io::ErrorKind::InvalidInput, "a request is one line"));
        }
        let requests = self.requests.as_mut().expect("only the end of a session takes it");
        match requests.write_all(line.as_bytes()).and_then(|()| requests.write_all(body)) {
            // A request of another form ends the process, perhaps before it has read the body, and has an answer.
            Err(error) if error.kind() != io::ErrorKind::BrokenPipe => Err(error),
            _ => self.answer(),
        }
    }

    fn answer(&mut self) -> io::Result<Answer> {
        let mut line = String::new();
        self.answers.read_line(&mut line)?;
        let line = line.strip_suffix('\n').ok_or(io::ErrorKind::UnexpectedEof)?;
        match line.split_once(' ') {
            Some(("refused", why)) => Ok(Answer::Refused(why.into())),
            Some(("failed", why)) => Ok(Answer::Failed(why.into())),
            Some(("ok", length)) => self.bytes(length.parse().map_err(|_| io::ErrorKind::InvalidData)?),
            _ => Err(io::ErrorKind::InvalidData.into()),
        }
    }

    fn bytes(&mut self, length: usize) -> io::Result<Answer> {
        let mut bytes = Vec::new();
        (&mut self.answers).take(length as u64).read_to_end(&mut bytes)?;
        if bytes.len() == length {
            Ok(Answer::Done(bytes))
        } else {
            Err(io::ErrorKind::UnexpectedEof.into())
        }
    }
}

impl Drop for Session {
    fn drop(&mut self) {
        self.requests = None;
        let _ = self.process.wait();
    }
}
