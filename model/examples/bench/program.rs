//! SEEK from its start to its end, beside a plain Rust program that does the same.

use std::ffi::OsStr;
use std::fs::File;
use std::io::{Read, Write};
use std::path::{Path, PathBuf};
use std::process::{Command, Stdio};

use ruffarmoire_model::gen::{Random, Shape};
use ruffarmoire_model::job::{self, Job};
use ruffarmoire_model::seek::seek;
use ruffarmoire_model::MAX_TEXT;

use crate::baseline::report::{seek_report, NUMBERS};
use crate::seek_program::PROGRAM;
use crate::timing::{medians, Timed};

/// The word that makes this program do what SEEK does.
pub const AS_SEEK: &str = "--as-seek";

/// The most bytes that a report has.
const MAX_REPORT: usize = NUMBERS + 5 * MAX_TEXT + 5 * MAX_TEXT;

/// Does what SEEK does, by the plain Rust versions of the calls.
pub fn be_seek() {
    let mut file = Vec::new();
    std::io::stdin()
        .read_to_end(&mut file)
        .expect("standard input is read");
    let mut out = vec![0; MAX_REPORT];
    let length = seek_report(&file, &mut out).bytes as usize;
    std::io::stdout()
        .write_all(&out[..length])
        .expect("standard output is written");
}

pub fn run() {
    println!("SEEK as a process, from its start to the end of what it prints: ms a run.");
    println!(
        "{:34} {:>8} {:>8} {:>12}",
        "job", "SEEK", "Rust", "SEEK/Rust"
    );
    let folder = std::env::temp_dir().join(format!("ruffarmoire-bench-{}", std::process::id()));
    std::fs::create_dir(&folder).expect("a folder for the job files");
    let path = folder.join("job");
    let own = std::env::current_exe().expect("this program's own path");
    for (name, file) in jobs() {
        std::fs::write(&path, &file).expect("a job file");
        let expected = seek(&file).into_bytes();
        let timed = |program: PathBuf, words: &'static [&'static str]| {
            assert!(
                output(&program, words, &path) == expected,
                "{program:?}, {name}"
            );
            let path = &path;
            Timed::program(move || {
                output(&program, words, path);
            })
        };
        let [rattle, rust] = medians([
            timed(PathBuf::from(PROGRAM), &[]),
            timed(own.clone(), &[AS_SEEK]),
        ])
        .map(|micros| micros / 1e3);
        println!("{name:34} {rattle:8.3} {rust:8.3} {:12.2}", rattle / rust);
    }
    std::fs::remove_dir_all(&folder).expect("it was made here");
}

fn jobs() -> [(&'static str, Vec<u8>); 5] {
    let mut random = Random::seeded(34);
    let all_equal = |m: usize| {
        job::write(&Job {
            pattern: vec![0x18; m],
            hold: 0,
            text: vec![0x18; 16_384],
        })
    };
    [
        ("none (refused)", Vec::new()),
        (
            "largest, random bytes",
            job::write(&Shape::AnyBytes.job(&mut random, 128, 16_384)),
        ),
        (
            "largest, copies of the pattern",
            job::write(&Shape::Planted.job(&mut random, 128, 16_384)),
        ),
        ("largest, all equal, m 128", all_equal(128)),
        ("all equal, m 1 (longest output)", all_equal(1)),
    ]
}

/// What a program prints for a job file.
fn output(program: &Path, words: &[impl AsRef<OsStr>], job: &Path) -> Vec<u8> {
    let output = Command::new(program)
        .args(words)
        .stdin(File::open(job).expect("the job file"))
        .stderr(Stdio::inherit())
        .output()
        .expect("the program runs");
    assert!(output.status.success(), "{program:?}: {}", output.status);
    output.stdout
}
