//! The programs that `tools/programs` wrote below target/bin.
use std::io::Write;
use std::net::Shutdown;
use std::os::fd::OwnedFd;
use std::os::unix::net::UnixStream;
use std::process::{Child, Command, Output, Stdio};
use std::thread::sleep;
use std::time::Duration;

/// All that a program prints on an input.
pub fn printed(name: &str, input: &[u8]) -> String {
    printed_with(name, &[], input)
}

/// The same with arguments.
pub fn printed_with(name: &str, arguments: &[&str], input: &[u8]) -> String {
    String::from_utf8(written_with(name, arguments, input).stdout).expect("text")
}

/// All that it writes on standard output and on standard error.
pub fn written(name: &str, input: &[u8]) -> Output {
    written_with(name, &[], input)
}

/// The same where its input is a socket that gives the first bytes at once. A late byte comes when these have been read, and ends the
/// input. Without one the socket stays open and a read of more does not wait: it fails.
pub fn fed(name: &str, first: &[u8], late: Option<u8>) -> Output {
    let (mut other, own) = UnixStream::pair().expect("a pair of sockets");
    other.write_all(first).expect("room in the socket");
    own.set_nonblocking(late.is_none()).expect("a socket");
    let child = started(name, &[], Stdio::from(OwnedFd::from(own)));
    if let Some(byte) = late {
        sleep(Duration::from_millis(200));
        other.write_all(&[byte]).expect("the program reads");
        other.shutdown(Shutdown::Write).expect("an end");
    }
    ended(name, child)
}

/// All that it writes with arguments.
pub fn written_with(name: &str, arguments: &[&str], input: &[u8]) -> Output {
    let mut child = started(name, arguments, Stdio::piped());
    // a program that refuses long input may end before it has read all of it
    let _ = child.stdin.take().expect("a pipe").write_all(input);
    ended(name, child)
}

fn started(name: &str, arguments: &[&str], input: Stdio) -> Child {
    let program = format!("{}/../../target/bin/{name}", env!("CARGO_MANIFEST_DIR"));
    Command::new(&program)
        .args(arguments)
        .stdin(input)
        .stdout(Stdio::piped())
        .stderr(Stdio::piped())
        .spawn()
        .unwrap_or_else(|e| panic!("{program}: {e}; run `tools/programs {name}` first"))
}

fn ended(name: &str, child: Child) -> Output {
    let output = child.wait_with_output().expect("the program ends");
    assert!(output.status.success(), "{name}: {}", output.status);
    output
}
