//! The program itself, where no contract can look: what its calls of C read and write, and to which descriptor.
//!
//! It is fed byte by byte and in odd chunks, each a datagram, so that a read gets one chunk and never two; its input
//! and its output are made to fail. Looked at are both outputs and the exit status, which is 0 also where it fails,
//! since the language has no other.

use std::fs::{self, File};
use std::io::{self, Write};
use std::os::fd::OwnedFd;
use std::os::unix::net::{UnixDatagram, UnixStream};
use std::os::unix::process::CommandExt;
use std::path::Path;
use std::process::{Command, Output, Stdio};

use second::program::run_script;

/// The most bytes that a script may have.
const LIMIT: usize = 65_536;

/// All tests of the program, each with what is wrong where it fails.
pub fn tests(program: &str) -> Vec<(String, Result<(), String>)> {
    let folder = Path::new(env!("CARGO_MANIFEST_DIR")).join("../../crates/slots");
    let stored = |name: &str| fs::read(folder.join(name)).expect("the program has a stored case");
    let (script, text) = (stored("stdin"), stored("stdout"));
    let mut all = Vec::new();
    let mut test = |name: String, result: Result<(), String>| all.push((name, result));

    test("the stored script from a pipe".into(), from_pipe(program, &script, &text));
    for chunk in [1, 2, 3, 7, script.len()] {
        let name = format!("the stored script in reads of {chunk} bytes");
        test(name, in_chunks(program, &script, chunk, &text));
    }
    for (name, script) in long_scripts() {
        let mut text = Vec::new();
        run_script(&script, &mut text).expect("a vector takes all that is written");
        for chunk in [997, 4_096, LIMIT] {
            let name = format!("{name} in reads of {chunk} bytes");
            test(name, in_chunks(program, &script, chunk, &text));
        }
    }

    let ends =
        |input: Input, output: Destination| run(program, input, output).map_err(|error| error.to_string());
    let failed = |input: Input, output: Destination, error: &str| {
        expect(&ends(input, output)?, b"", format!("slots: {error}\n").as_bytes())
    };
    let broken = |script: &[u8]| broken_socket(script).expect("a pair of sockets");
    test(
        "an input that is closed".into(),
        failed(Input::Closed, Destination::Pipe, "standard input: Bad file descriptor"),
    );
    test(
        "an input that is a directory".into(),
        failed(Input::from(File::open("/")), Destination::Pipe, "standard input: Is a directory"),
    );
    let write_only = File::options().write(true).open("/dev/null");
    test(
        "an input that is open for writing alone".into(),
        failed(Input::from(write_only), Destination::Pipe, "standard input: Bad file descriptor"),
    );
    for (name, read) in [("no byte", 0), ("one byte", 1), ("a whole script", script.len())] {
        test(
            format!("an input that fails after {name}"),
            failed(broken(&script[..read]), Destination::Pipe, "standard input: Connection reset by peer"),
        );
    }

    let whole = || Input::Bytes(script.clone());
    let full = File::options().write(true).open("/dev/full");
    test(
        "a full device".into(),
        failed(whole(), Destination::from(full), "standard output: No space left on device"),
    );
    test(
        "an output that is closed".into(),
        failed(whole(), Destination::Closed, "standard output: Bad file descriptor"),
    );
    test(
        "an output that is open for reading alone".into(),
        failed(whole(), Destination::from(File::open("/dev/null")), "standard output: Bad file descriptor"),
    );
    let (reader, writer) = UnixStream::pair().expect("a pair of sockets");
    writer.set_nonblocking(true).expect("a socket that does not wait");
    test(
        "an output that takes only a part".into(),
        failed(
            Input::Bytes(many_lines()),
            Destination::Is(writer.into()),
            "standard output: Resource temporarily unavailable",
        ),
    );
    drop(reader);
    all
}

/// A script that prints over 320,000 bytes, more than a socket holds: requests of a queue that there is not, from slot
/// 65,535 on.
fn many_lines() -> Vec<u8> {
    let mut script = vec![0x10, 1, 2, 2, 4, 255, 255];
    while script.len() + 3 <= LIMIT {
        script.extend([2, 5]);
    }
    script.push(5);
    script
}

/// A script through the program, in one piece from a pipe.
pub fn from_pipe(program: &str, script: &[u8], text: &[u8]) -> Result<(), String> {
    let input = Input::Bytes(script.to_vec());
    expect(&run(program, input, Destination::Pipe).map_err(|error| error.to_string())?, text, b"")
}

/// The same in reads of a chunk each.
pub fn in_chunks(program: &str, script: &[u8], chunk: usize, text: &[u8]) -> Result<(), String> {
    let chunks = script.chunks(chunk).map(<[u8]>::to_vec).collect();
    let ended = run(program, Input::Chunks(chunks), Destination::Pipe).map_err(|error| error.to_string())?;
    expect(&ended, text, b"")
}

/// Scripts about as long as a script may be: a refusal in every slot, so that each byte tells; and one byte too many.
fn long_scripts() -> Vec<(&'static str, Vec<u8>)> {
    let filled = |length: usize| {
        let mut script = vec![0x10, 1, 2, 2];
        while script.len() + 2 < length {
            script.extend([2, 5]);
        }
        script.resize(length - 1, 0);
        script.push(5);
        script
    };
    vec![
        ("65,535 bytes", filled(LIMIT - 1)),
        ("65,536 bytes", filled(LIMIT)),
        ("65,537 bytes", filled(LIMIT + 1)),
        ("200,000 bytes", filled(200_000)),
    ]
}

/// What the program reads.
enum Input {
    /// These bytes, from a pipe.
    Bytes(Vec<u8>),
    /// One of these with each read, and then the end.
    Chunks(Vec<Vec<u8>>),
    /// This, as it is.
    Is(OwnedFd),
    Closed,
}

/// Where the program's standard output goes.
enum Destination {
    Pipe,
    Is(OwnedFd),
    Closed,
}

impl From<io::Result<File>> for Input {
    fn from(opened: io::Result<File>) -> Input {
        Input::Is(opened.expect("the file opens").into())
    }
}

impl From<io::Result<File>> for Destination {
    fn from(opened: io::Result<File>) -> Destination {
        Destination::Is(opened.expect("the file opens").into())
    }
}

/// A socket from which these bytes can be read, and then a read fails: the other end was closed with a byte unread.
fn broken_socket(bytes: &[u8]) -> io::Result<Input> {
    let (mut far, mut near) = UnixStream::pair()?;
    near.write_all(&[0])?;
    far.write_all(bytes)?;
    Ok(Input::Is(near.into()))
}

/// Runs the program to its end.
fn run(program: &str, input: Input, output: Destination) -> io::Result<Output> {
    let mut command = Command::new(program);
    command.stdin(Stdio::piped()).stdout(Stdio::piped()).stderr(Stdio::piped());
    let mut feeder = None;
    match &input {
        Input::Bytes(_) => {}
        Input::Chunks(_) => {
            let (far, near) = UnixDatagram::pair()?;
            feeder = Some(far);
            command.stdin(OwnedFd::from(near));
        }
        Input::Is(descriptor) => {
            command.stdin(descriptor.try_clone()?);
        }
        Input::Closed => close_before_start(&mut command, 0),
    }
    match output {
        Destination::Pipe => {}
        Destination::Is(descriptor) => {
            command.stdout(descriptor);
        }
        Destination::Closed => close_before_start(&mut command, 1),
    }
    let mut child = command.spawn()?;
    // What is lent to the program is the program's alone, so that a feeder is told when it ends.
    drop(command);
    // A program that has read enough may end before all is written.
    match (&input, child.stdin.take(), feeder) {
        (Input::Bytes(bytes), Some(mut pipe), _) => _ = pipe.write_all(bytes),
        (Input::Chunks(chunks), _, Some(socket)) => {
            let end: &[u8] = &[];
            let mut messages = chunks.iter().map(Vec::as_slice).chain([end]);
            while messages.next().is_some_and(|message| socket.send(message).is_ok()) {}
        }
        _ => {}
    }
    child.wait_with_output()
}

/// Has the program start with a descriptor closed.
fn close_before_start(command: &mut Command, descriptor: i32) {
    extern "C" {
        fn close(descriptor: i32) -> i32;
    }
    // Safe: a plain system call in the new process, on a descriptor that is its own.
    unsafe {
        command.pre_exec(move || {
            close(descriptor);
            Ok(())
        })
    };
}

/// The program ended with status 0 and wrote this.
fn expect(ended: &Output, text: &[u8], error: &[u8]) -> Result<(), String> {
    if !ended.status.success() {
        return Err(ended.status.to_string());
    }
    same("standard error", &ended.stderr, error)?;
    same("standard output", &ended.stdout, text)
}

/// Two texts are the same, or in which line they are not.
pub fn same(what: &str, found: &[u8], expected: &[u8]) -> Result<(), String> {
    if found == expected {
        return Ok(());
    }
    let line = |text: &[u8], at: usize| {
        let lines = String::from_utf8_lossy(text).into_owned();
        lines.lines().nth(at).unwrap_or("nothing").to_string()
    };
    let at = found.split(|&byte| byte == b'\n').zip(expected.split(|&byte| byte == b'\n'));
    let at = at.take_while(|(one, other)| one == other).count();
    Err(format!("line {at} of {what} is '{}', expected '{}'", line(found, at), line(expected, at)))
}
