//! Runs the program: its words, its streams, its statuses and what it says on standard error.
#![cfg(unix)]

use std::fs::{self, File, OpenOptions};
use std::io::Write;
use std::os::unix::fs::PermissionsExt;
use std::path::{Path, PathBuf};
use std::process::{Command, Stdio};
use std::sync::OnceLock;
use std::time::Duration;

const PROGRAM: &str = env!("CARGO_BIN_EXE_bits");
const EXAMPLES: &str = concat!(env!("CARGO_MANIFEST_DIR"), "/../../examples");
const WORDS: &str =
    "bits: it takes --strict, --why, --engine PROGRAM, --help, --version or one FILE\n";
const NO_READ: &str = "bits: a read failed, and nothing was written\n";
const NO_WRITE: &str = "bits: a write failed, and a beginning of the output was written\n";
const NO_MEMORY: &str = "bits: memory was refused, and nothing was written\n";

/// Engines, each a script: what it is called, and what it does.
const ENGINES: [(&str, &str); 13] = [
    ("same", "exec cat"),
    ("no", "exec sed 's/.*/F8 not a command/'"),
    ("of_itself", "echo 'F1 no such set'"),
    ("part", "head -n 1; echo 'F8 not a comm'; printf 'F8 more'"),
    ("0", "exit 0"),
    ("1", "exit 1"),
    ("2", "exit 2"),
    ("3", "exit 3"),
    ("4", "echo 'F2 no'; exit 4"),
    ("7", "echo ok; exit 7"),
    ("late", "echo 'F2 no'; exit 3"),
    ("125", "exit 125"),
    ("killed", "echo ok; kill -9 $$"),
];

/// What a run left: its status, its output, and what it said.
type Ran = (i32, String, String);

/// The folder of the engines. All are written before the first is started, for a script that is open to be written, also by a
/// process that has just been split off, cannot be started.
fn engines() -> &'static Path {
    static MADE: OnceLock<PathBuf> = OnceLock::new();
    MADE.get_or_init(|| {
        let folder = Path::new(env!("CARGO_TARGET_TMPDIR")).join("engines");
        fs::create_dir_all(&folder).unwrap();
        for (name, lines) in ENGINES {
            let path = folder.join(name);
            fs::write(&path, format!("#!/bin/sh\n{lines}\n")).unwrap();
            fs::set_permissions(&path, fs::Permissions::from_mode(0o755)).unwrap();
        }
        folder
    })
}

/// The program with these words, where `@NAME` is an engine.
fn program(words: &str) -> Command {
    let mut command = Command::new(PROGRAM);
    for word in words.split_whitespace() {
        match word.strip_prefix('@') {
            Some(name) => command.arg(engines().join(name)),
            None => command.arg(word),
        };
    }
    engines();
    command
}

fn ran(command: &mut Command, lines: &str) -> Ran {
    let command = command.stdin(Stdio::piped()).stderr(Stdio::piped());
    let mut child = command.spawn().unwrap();
    // (Where the program does not read them, the lines are lost.)
    let _ = child.stdin.take().unwrap().write_all(lines.as_bytes());
    let left = child.wait_with_output().unwrap();
    let [output, errors] =
        [left.stdout, left.stderr].map(|it| String::from_utf8_lossy(&it).into_owned());
    (left.status.code().unwrap(), output, errors)
}

fn run(words: &str, lines: &str) -> Ran {
    ran(program(words).stdout(Stdio::piped()), lines)
}

fn example(name: &str) -> String {
    fs::read_to_string(format!("{EXAMPLES}/{name}")).unwrap()
}

fn wanted(status: i32, output: &str, errors: &str) -> Ran {
    (status, output.into(), errors.into())
}

#[test]
fn lines_are_answered() {
    let lines = "with_capacity 0 10\ninsert 0 10\nlen 0\n";
    let replies = "ok\nF2 position not below the length\n10\n";
    let refused = "bits: line 2 is the first that was refused: F2 position not below the length\n";
    assert_eq!(run("", lines), wanted(0, replies, ""));
    assert_eq!(run("--why", lines), wanted(0, replies, ""));
    assert_eq!(run("--strict", lines), wanted(4, replies, refused));
    assert_eq!(run("--strict --why", lines), wanted(4, replies, refused));
    assert_eq!(run("--strict --why", "new 0"), wanted(0, "ok\n", ""));
    assert_eq!(run("--strict --why", ""), wanted(0, "", ""));
}

#[test]
fn a_file_is_read() {
    for name in ["first", "second"] {
        let file = format!("{EXAMPLES}/{name}.txt");
        assert_eq!(
            run(&file, "len 0\n"),
            wanted(0, &example(&format!("{name}.out")), "")
        );
    }
    let (status, replies, said) = run(&format!("--strict --why {EXAMPLES}/first.txt"), "");
    let refused = "bits: line 6 is the first that was refused: F2 position not below the length\n";
    assert_eq!(
        (status, replies, said.as_str()),
        (4, example("first.out"), refused)
    );
}

/// A line with every fault that a line may have, and what is said of it.
#[test]
fn what_lines_lack_is_said() {
    let found = run(&format!("--strict --why {EXAMPLES}/wrong.txt"), "");
    assert_eq!(
        found,
        wanted(4, &example("wrong.out"), &example("wrong.err"))
    );
    let (status, replies, said) = run(&format!("--why {EXAMPLES}/wrong.txt"), "");
    assert_eq!((status, replies), (0, example("wrong.out")));
    assert_eq!(
        said.lines().count() + 1,
        example("wrong.err").lines().count()
    );
    assert_eq!(
        run(&format!("{EXAMPLES}/wrong.txt"), ""),
        wanted(0, &example("wrong.out"), "")
    );
}

#[test]
fn words_are_looked_at() {
    let (status, help, said) = run("--help", "");
    assert!(
        help.starts_with("usage: bits [--strict] [--why] [--engine PROGRAM] [FILE]\n"),
        "{help}"
    );
    assert!(
        help.lines().all(|it| it.len() <= 130) && help.ends_with(".\n"),
        "{help}"
    );
    assert_eq!((status, said.as_str()), (0, ""));
    let version = concat!("bits ", env!("CARGO_PKG_VERSION"), "\n");
    assert_eq!(run("--version", ""), wanted(0, version, ""));
    for words in [
        "--proved",
        "--unproved",
        "-s",
        "--strict --nosuch",
        &format!("{PROGRAM} {PROGRAM}"),
    ] {
        assert_eq!(run(words, "len 0\n"), wanted(125, "", WORDS), "{words}");
    }
    assert_eq!(
        run("--engine", ""),
        wanted(125, "", "bits: --engine takes the name of a program\n")
    );
    let unwritten = ran(
        program("--help").stdout(File::create("/dev/full").unwrap()),
        "",
    );
    assert_eq!(unwritten, wanted(2, "", NO_WRITE));
}

#[test]
fn an_input_that_cannot_be_read() {
    for look in ["", "--look ", "--strict --why "] {
        let missing = format!("bits: the file {EXAMPLES}/none cannot be read\n");
        assert_eq!(
            run(&format!("{look}{EXAMPLES}/none"), ""),
            wanted(125, "", &missing)
        );
        let folder = format!("bits: {EXAMPLES} is a folder and no file\n");
        assert_eq!(
            run(&format!("{look}{EXAMPLES}"), ""),
            wanted(125, "", &folder)
        );
        let folder =
            "bits: standard input is a folder, so a read failed, and nothing was written\n";
        let found = program(look)
            .stdin(File::open(EXAMPLES).unwrap())
            .output()
            .unwrap();
        assert_eq!(
            (found.status.code(), found.stderr),
            (Some(1), folder.into())
        );
    }
    let told = "bits: standard input is closed or open for writing alone, so a read failed, and nothing was written\n";
    for words in ["", "--look", "--strict", "--why", "--engine @same"] {
        let unreadable = OpenOptions::new().write(true).open("/dev/null").unwrap();
        let found = program(words).stdin(unreadable).output().unwrap();
        assert_eq!(
            (found.status.code(), found.stdout, found.stderr),
            (Some(1), Vec::new(), told.into())
        );
    }
}

/// A file that can be opened, of which each read fails.
#[test]
#[cfg(target_os = "linux")]
fn a_read_that_fails() {
    for words in ["", "--strict", "--why", "--why --engine @same"] {
        let found = run(&format!("{words} /proc/self/mem"), "");
        assert_eq!(found, wanted(1, "", NO_READ), "{words}");
    }
}

/// A pipe with a name is not opened, which would take until somebody writes to it.
#[test]
fn a_pipe_is_not_opened_to_be_looked_at() {
    let pipe = Path::new(env!("CARGO_TARGET_TMPDIR")).join("pipe");
    let _ = fs::remove_file(&pipe);
    assert!(Command::new("mkfifo")
        .arg(&pipe)
        .status()
        .unwrap()
        .success());
    let mut looking = program("--look").arg(&pipe).spawn().unwrap();
    let ended = (0..100).find_map(|_| {
        std::thread::sleep(Duration::from_millis(100));
        looking.try_wait().unwrap()
    });
    let _ = looking.kill();
    assert_eq!(ended.and_then(|it| it.code()), Some(0));
}

/// With `--look` nothing is read and nothing is answered.
#[test]
fn an_input_is_looked_at() {
    assert_eq!(run("--look", "len 0\n"), wanted(0, "", ""));
    assert_eq!(
        run(
            &format!("--look --why --engine @7 {EXAMPLES}/first.txt"),
            ""
        ),
        wanted(0, "", "")
    );
    assert_eq!(run("--look --nosuch", ""), wanted(125, "", WORDS));
}

#[test]
fn an_output_that_cannot_be_written() {
    for words in [
        "",
        "--strict",
        "--why",
        "--strict --engine @same",
        "--why --engine @same",
    ] {
        let full = || File::create("/dev/full").unwrap();
        assert_eq!(
            ran(program(words).stdout(full()), "len 0\n"),
            wanted(2, "", NO_WRITE),
            "{words}"
        );
        let unwritable = File::open("/dev/null").unwrap();
        assert_eq!(
            ran(program(words).stdout(unwritable), "len 0\n"),
            wanted(2, "", NO_WRITE),
            "{words}"
        );
        assert_eq!(
            ran(program(words).stdout(nobody()), "len 0\n"),
            wanted(2, "", ""),
            "{words}"
        );
    }
    assert_eq!(
        ran(program("--engine @2").stdout(nobody()), ""),
        wanted(2, "", "")
    );
}

/// A pipe that nobody reads any more.
fn nobody() -> Stdio {
    let mut reader = Command::new("true").stdin(Stdio::piped()).spawn().unwrap();
    let mut pipe = reader.stdin.take().unwrap();
    reader.wait().unwrap();
    // (A process that another test begins has the other end too, until it is the program.)
    while pipe.write_all(b"\n").is_ok() {
        std::thread::sleep(Duration::from_millis(10));
    }
    pipe.into()
}

/// Where nobody reads what is said, the status is what it is else.
#[test]
fn sentences_that_cannot_be_written() {
    for (words, status) in [("--nosuch", 125), ("--strict --why", 4)] {
        let mut command = program(words);
        command
            .stdin(File::open(format!("{EXAMPLES}/wrong.txt")).unwrap())
            .stdout(Stdio::null());
        let found = command
            .stderr(File::create("/dev/full").unwrap())
            .status()
            .unwrap();
        assert_eq!(found.code(), Some(status), "{words}");
    }
}

#[test]
fn an_engine_answers() {
    let lines = "ok\nF8 no\ntrue\n";
    let why = "bits: line 2 is no command: there is no command `F8`, and the nearest is `eq`\n";
    let refused = "bits: line 2 is the first that was refused: F8 no\n";
    assert_eq!(run("--engine @same", lines), wanted(0, lines, ""));
    assert_eq!(
        run("--engine @same --strict", lines),
        wanted(4, lines, refused)
    );
    assert_eq!(run("--engine @same --why", lines), wanted(0, lines, why));
    assert_eq!(
        run("--engine @same --why --strict", lines),
        wanted(4, lines, &format!("{why}{refused}"))
    );
    let first = example("first.txt");
    for words in ["", "--strict ", "--why "] {
        let words = format!("{words}--engine @same {EXAMPLES}/first.txt");
        assert_eq!(run(&words, "len 0\n"), wanted(0, &first, ""), "{words}");
    }
    let is_one = "bits: line 1 is no command: it is one by docs/COMMANDS.md\n";
    assert_eq!(
        run("--why --engine @no", "len 0\n"),
        wanted(0, "F8 not a command\n", is_one)
    );
}

/// More replies than lines, and fewer; the last without a line end.
#[test]
fn an_engine_that_does_not_read() {
    let one = "F1 no such set\n";
    let refused = "bits: line 1 is the first that was refused: F1 no such set\n";
    for lines in ["", "len 0\n", &"len 0\n".repeat(100_000)] {
        let file = Path::new(env!("CARGO_TARGET_TMPDIR")).join(format!("lines{}", lines.len()));
        fs::write(&file, lines).unwrap();
        let words = format!("--strict --why --engine @of_itself {}", file.display());
        assert_eq!(run(&words, ""), wanted(4, one, refused));
    }
    let why = "bits: line 2 is no command: it is empty\n";
    let replies = "new 0\nF8 not a comm\nF8 more";
    let why = format!("{why}bits: line 3 is no command: it is empty\n");
    assert_eq!(
        run("--why --engine @part", "new 0\n\n"),
        wanted(0, replies, &why)
    );
}

/// An engine that writes while it reads: more than a pipe holds, both ways.
#[test]
fn an_engine_that_answers_at_once() {
    let lines = "count_ones 0 ..\n".repeat(200_000);
    let file = Path::new(env!("CARGO_TARGET_TMPDIR")).join("many");
    fs::write(&file, &lines).unwrap();
    for words in ["", "--strict", "--why"] {
        let (status, replies, said) =
            run(&format!("{words} --engine @same {}", file.display()), "");
        assert_eq!(
            (status, replies == lines, said.as_str()),
            (0, true, ""),
            "{words}"
        );
    }
}

#[test]
fn an_engine_ends() {
    let folder = engines().display();
    for words in ["", "--strict ", "--why ", "--strict --why "] {
        for (name, said) in [("0", ""), ("1", NO_READ), ("3", NO_MEMORY)] {
            let found = run(&format!("{words}--engine @{name}"), "new 0\n");
            assert_eq!(found, wanted(name.parse().unwrap(), "", said), "{words}");
        }
        for (name, output) in [("4", "F2 no\n"), ("7", "ok\n"), ("125", "")] {
            let told = format!("bits: the engine {folder}/{name} ended with status {name}, which is none of 0 to 3\n");
            assert_eq!(
                run(&format!("{words}--engine @{name}"), "new 0\n"),
                wanted(125, output, &told),
                "{words}"
            );
        }
        let told = format!("bits: the engine {folder}/killed was ended by signal 9 (SIGKILL)\n");
        assert_eq!(
            run(&format!("{words}--engine @killed"), "new 0\n"),
            wanted(125, "ok\n", &told),
            "{words}"
        );
        let (status, output, said) = run(&format!("{words}--engine {EXAMPLES}/none"), "new 0\n");
        assert_eq!((status, output.as_str()), (125, ""));
        assert!(
            said.starts_with(&format!(
                "bits: the engine {EXAMPLES}/none cannot be started: "
            )),
            "{said}"
        );
    }
}

/// That a line was refused is the ending only of a run that is done.
#[test]
fn an_engine_that_refuses_and_fails() {
    let late = wanted(3, "F2 no\n", NO_MEMORY);
    assert_eq!(run("--strict --engine @late", ""), late);
    assert_eq!(run("--strict --why --engine @late", "new 0\n"), late);
}

/// Where standard output is no pipe, that a write of the engine's failed is said.
#[test]
fn an_engine_that_cannot_write() {
    let file = File::create(Path::new(env!("CARGO_TARGET_TMPDIR")).join("out")).unwrap();
    assert_eq!(
        ran(program("--engine @2").stdout(file), ""),
        wanted(2, "", NO_WRITE)
    );
    assert_eq!(run("--strict --engine @2", ""), wanted(2, "", ""));
}
