//! The program SEEK, written in Rattle, against the model: a job on standard input, and what is
//! printed.

mod common;

#[path = "../library/seek.rs"]
mod library;

use std::fs::File;
use std::io::{self, ErrorKind, Read, Write};
use std::os::fd::OwnedFd;
use std::os::unix::net::{UnixDatagram, UnixStream};
use std::path::Path;
use std::process::{Child, Command, Stdio};
use std::sync::mpsc::channel;
use std::thread;
use std::time::Duration;

use common::bounds;
use common::examples::example_jobs;
use common::files::{largest_job, small_job, spoiled_files};
use common::{repeats, rings};
use ruffarmoire_model::gen::{Random, SHAPES};
use ruffarmoire_model::job::{self, Job};
use ruffarmoire_model::seek::seek;

/// How long a run may take before it counts as one that does not end.
const LIMIT: Duration = Duration::from_secs(60);

/// How the file comes to standard input.
#[derive(Clone, Copy, Debug)]
enum Way {
    /// From a file.
    File,
    /// Through a pipe.
    Pipe,
    /// In pieces of so many bytes: each read gives one piece and no more, so there are as many
    /// reads as pieces. A read that asks for less than a piece loses the rest of it, so pieces are
    /// at most 4,096 bytes.
    Pieces(usize),
}

/// Runs SEEK on a file and gives what it printed. It writes no errors.
fn run(file: &[u8], way: Way) -> Vec<u8> {
    let (printed, errors) = match way {
        Way::File => {
            let name = format!("seek-{:?}", thread::current().id());
            let path = Path::new(env!("CARGO_TARGET_TMPDIR")).join(name);
            std::fs::write(&path, file).expect("a file can be written");
            let input = File::open(&path).expect("it was just written");
            outputs(start(input), || Ok(()))
        }
        Way::Pipe => {
            let mut child = start(Stdio::piped());
            let mut input = child.stdin.take().expect("it is a pipe");
            outputs(child, move || input.write_all(file))
        }
        Way::Pieces(length) => {
            // A read of such a socket gives what was sent at once.
            let (ours, input) = UnixDatagram::pair().expect("two sockets");
            outputs(start(OwnedFd::from(input)), move || {
                for piece in file.chunks(length) {
                    ours.send(piece)?;
                }
                // A read of no bytes is the end.
                ours.send(&[]).map(drop)
            })
        }
    };
    assert_eq!(errors.escape_ascii().to_string(), "");
    printed
}

fn start(input: impl Into<Stdio>) -> Child {
    Command::new(library::PROGRAM)
        .stdin(input)
        .stdout(Stdio::piped())
        .stderr(Stdio::piped())
        .spawn()
        .expect("SEEK starts")
}

/// What SEEK prints and what it writes as errors while its input is written. It ends well.
fn outputs(mut child: Child, write: impl FnOnce() -> io::Result<()> + Send) -> (Vec<u8>, Vec<u8>) {
    // A file that is too long need not be read to its end.
    const UNREAD: [ErrorKind; 3] = [
        ErrorKind::BrokenPipe,
        ErrorKind::ConnectionRefused,
        ErrorKind::ConnectionReset,
    ];
    let outputs = thread::scope(|scope| {
        scope.spawn(|| {
            if let Err(error) = write() {
                assert!(UNREAD.contains(&error.kind()), "writing to SEEK: {error}");
            }
        });
        read_to_end(&mut child)
    });
    let status = child.wait().expect("it was started here");
    assert!(status.success(), "SEEK ended with {status}");
    outputs
}

/// What a child prints and what it writes as errors, all of it, or a panic after the limit.
fn read_to_end(child: &mut Child) -> (Vec<u8>, Vec<u8>) {
    let mut output = child.stdout.take().expect("it is a pipe");
    let mut errors = child.stderr.take().expect("it is a pipe");
    let (sender, receiver) = channel();
    thread::spawn(move || {
        let (mut printed, mut written) = (Vec::new(), Vec::new());
        output.read_to_end(&mut printed).expect("a pipe is read");
        errors.read_to_end(&mut written).expect("a pipe is read");
        // No one listens any more where the limit has passed.
        let _ = sender.send((printed, written));
    });
    receiver.recv_timeout(LIMIT).unwrap_or_else(|_| {
        child.kill().expect("it was started here");
        panic!("SEEK did not end within {LIMIT:?}");
    })
}

/// Runs SEEK on a file and holds what it prints to the model.
fn check(file: &[u8], way: Way) {
    let printed = run(file, way);
    let expected = seek(file);
    if printed != expected.as_bytes() {
        let mut lines = printed.split_inclusive(|&byte| byte == b'\n');
        for (number, line) in expected.split_inclusive('\n').enumerate() {
            let found = lines.next().unwrap_or_default().escape_ascii();
            let due = line.as_bytes().escape_ascii();
            assert_eq!(found.to_string(), due.to_string(), "line {number}, {way:?}");
        }
        panic!("more is printed than due, {way:?}");
    }
}

fn check_job(job: &Job, way: Way) {
    check(&job::write(job), way);
}

#[test]
fn listing() {
    let file = b"0105020009\n06\n06\n18\n06\n06\n06\n06\n18\n06\n06\n06\n18\n06\n06\n";
    let printed = b"0002\n0000000D\n00000012\n0003\n00000015\n0000\n0004\n\
                    0006\n0006\n0100\n0006\n0006\n0006\n0100\n0006\n0006\n";
    for way in [Way::File, Way::Pipe, Way::Pieces(1)] {
        assert_eq!(run(file, way), printed);
    }
}

#[test]
fn worked_examples() {
    for job in example_jobs() {
        check_job(&job, Way::Pipe);
    }
}

#[test]
fn periods_and_bounds() {
    for (round, search) in bounds::written_out().enumerate() {
        let file = job::write(&search.job());
        let printed = run(&file, [Way::File, Way::Pipe][round % 2]);
        search.expect_printed(&String::from_utf8(printed).expect("digits and line ends"));
    }
}

#[test]
fn short_jobs() {
    let mut random = Random::seeded(101);
    for round in 0..60 {
        let (m, n) = (random.between(1, 12), random.between(0, 60));
        let job = SHAPES[round % SHAPES.len()].job(&mut random, m, n);
        check_job(&job, [Way::File, Way::Pipe, Way::Pieces(7)][round % 3]);
    }
}

#[test]
fn longer_jobs() {
    let mut random = Random::seeded(102);
    for round in 0..24 {
        let (m, n) = (random.between(1, 128), random.between(0, 5_000));
        let job = SHAPES[round % SHAPES.len()].job(&mut random, m, n);
        check_job(&job, [Way::File, Way::Pipe, Way::Pieces(1_000)][round % 3]);
    }
}

#[test]
fn long_repeats() {
    for (round, (pattern, text)) in repeats::mixed().step_by(9).enumerate() {
        let hold = round % pattern.len();
        let job = Job {
            pattern,
            hold,
            text,
        };
        check_job(&job, [Way::File, Way::Pipe][round % 2]);
    }
}

#[test]
fn rings() {
    let pairs = rings::short()
        .step_by(53)
        .chain(rings::largest().step_by(9));
    for (round, (pattern, text)) in pairs.enumerate() {
        let hold = round % pattern.len();
        let job = Job {
            pattern,
            hold,
            text,
        };
        check_job(&job, [Way::File, Way::Pipe][round % 2]);
    }
}

#[test]
fn largest_jobs() {
    let mut random = Random::seeded(103);
    for shape in SHAPES {
        check_job(&shape.job(&mut random, 1, 16_384), Way::Pipe);
        check_job(&shape.job(&mut random, 128, 16_384), Way::File);
    }
    for (pattern, text) in repeats::largest().step_by(4) {
        let job = Job {
            pattern,
            hold: 1,
            text,
        };
        check_job(&job, Way::Pipe);
    }
    // The longest that SEEK prints: every byte of the text is an occurrence and a frame.
    let all_found = Job {
        pattern: vec![0xFF],
        hold: 0,
        text: vec![0xFF; 16_384],
    };
    check_job(&all_found, Way::Pipe);
}

#[test]
fn spoiled_jobs() {
    for (round, file) in spoiled_files().iter().enumerate() {
        check(file, [Way::File, Way::Pipe][round % 2]);
    }
}

/// As many reads as pieces, up to as many as the file has bytes.
#[test]
fn jobs_in_pieces() {
    let small = job::write(&small_job());
    for length in 1..=small.len() {
        check(&small, Way::Pieces(length));
    }
    for length in [1, 11, 1_000, 4_096] {
        check_job(&largest_job(), Way::Pieces(length));
    }
}

#[test]
fn spoiled_jobs_in_pieces() {
    let small = job::write(&small_job());
    for length in [0, 1, 10, 11, 12, small.len() - 1, small.len()] {
        check(&small[..length], Way::Pieces(1));
        check(&small[..length], Way::Pieces(11));
    }
    let mut long = job::write(&largest_job());
    long.push(b'\n');
    for length in [1, 11, 4_096] {
        check(&long, Way::Pieces(length));
    }
    long.resize(1 << 20, b'\n');
    check(&long, Way::Pieces(4_000));
}

/// A read that fails, as the first and after a whole job: nothing is printed but the message.
#[test]
fn input_that_cannot_be_read() {
    let folder = File::open(".").expect("this folder");
    let mut inputs = vec![Stdio::from(folder)];
    for file in [
        &b""[..],
        &job::write(&small_job()),
        &job::write(&largest_job()),
    ] {
        inputs.push(Stdio::from(failing_after(file)));
    }
    for input in inputs {
        let (printed, errors) = outputs(start(input), || Ok(()));
        assert_eq!(printed.escape_ascii().to_string(), "");
        assert_eq!(errors, b"SEEK: standard input could not be read\n");
    }
}

/// An input that gives a file and then fails: a connection that the other side resets, as one does
/// that is closed with something unread.
fn failing_after(file: &[u8]) -> OwnedFd {
    let (mut ours, mut input) = UnixStream::pair().expect("two sockets");
    input.write_all(b"unread").expect("a socket has room");
    ours.write_all(file).expect("a socket has room");
    input.into()
}
