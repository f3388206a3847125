// Runs a program whose standard input gives one event line and then fails.
use std::io::Write;
use std::os::fd::OwnedFd;
use std::os::unix::net::UnixStream;
use std::process::{exit, Command};

fn main() -> std::io::Result<()> {
    let program = std::env::args().nth(1).expect("the program");
    let (mut feeder, mut input) = UnixStream::pair()?;
    feeder.write_all(b"(event 1)\n")?;
    // What the feeder has not read when it is closed makes the next read of the other end fail.
    input.write_all(b"unread")?;
    drop(feeder);
    let status = Command::new(program).stdin(OwnedFd::from(input)).status()?;
    exit(status.code().unwrap_or(1))
}
