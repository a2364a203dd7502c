//! Memory that is refused, one request at a time: a line answers `F6` and changes nothing, or the status is 3 and nothing is
//! written.
//!
//! JSON is left out, read and written: serde_json ends the program where memory for a value is refused.
mod model;

use std::alloc::{GlobalAlloc, Layout, System};
use std::cell::Cell;
use std::path::Path;

thread_local! {
    /// How many requests of this thread are answered before one is refused.
    static LEFT: Cell<usize> = const { Cell::new(usize::MAX) };
    /// The greatest request that is answered.
    static MOST: Cell<usize> = const { Cell::new(usize::MAX) };
}

/// Rust's own allocator, which refuses one request of a thread, or those that are great.
struct Refusing;

// SAFETY: each request is passed on, or answered with no memory, which is allowed.
unsafe impl GlobalAlloc for Refusing {
    unsafe fn alloc(&self, layout: Layout) -> *mut u8 {
        let left = LEFT.get();
        LEFT.set(left.wrapping_sub(1));
        if left == 0 || layout.size() > MOST.get() {
            std::ptr::null_mut()
        } else {
            System.alloc(layout)
        }
    }

    unsafe fn dealloc(&self, memory: *mut u8, layout: Layout) {
        System.dealloc(memory, layout);
    }
}

#[global_allocator]
static REFUSING: Refusing = Refusing;

/// The status and the output, where these bounds hold as it runs; and how many requests were made.
fn ran(input: &[u8], left: usize, most: usize) -> (u8, Vec<u8>, usize) {
    let mut output = Vec::with_capacity(1 << 21);
    LEFT.set(left);
    MOST.set(most);
    let status = bits::run(&mut &input[..], &mut output);
    let made = left.wrapping_sub(LEFT.get());
    LEFT.set(usize::MAX);
    MOST.set(usize::MAX);
    (status, output, made)
}

/// Lines that ask for memory, from the file that the proved program is tried on.
fn lines() -> Vec<String> {
    let path = Path::new(env!("CARGO_MANIFEST_DIR")).join("../../tools/memory/memory.txt");
    let text = std::fs::read_to_string(path).expect("tools/memory/memory.txt");
    let questions = (0..16).flat_map(|it| [format!("len {it}"), format!("count_ones {it} ..")]);
    let lines = text.lines().filter(|it| !it.contains("_value"));
    lines.map(String::from).chain(questions).collect()
}

/// What a refused line may have done: nothing, or `extend` with some of its items.
fn parts(line: &str) -> Vec<String> {
    let words: Vec<&str> = line.split(' ').collect();
    let count = if words[0] == "extend" { words.len() } else { 2 };
    (2..=count)
        .map(|it| {
            if words[0] == "extend" {
                words[..it].join(" ")
            } else {
                String::new()
            }
        })
        .collect()
}

/// Whether the replies are those of the model, but for lines that answer `F6`.
fn is_right(lines: &[String], replies: &[&str]) -> bool {
    let refused = replies.iter().position(|it| *it == "F6 no memory");
    let tried = refused.map_or(vec![String::new()], |it| parts(&lines[it]));
    tried.iter().any(|part| {
        let mut model = model::Model::default();
        lines
            .iter()
            .zip(replies)
            .enumerate()
            .all(|(at, (line, reply))| {
                if refused == Some(at) {
                    model.reply(part.as_bytes());
                    return true;
                }
                model.reply(line.as_bytes()) == *reply
            })
    })
}

#[test]
fn each_request_may_be_refused() {
    let lines = lines();
    let input = lines.join("\n");
    let (status, _, requests) = ran(input.as_bytes(), usize::MAX, usize::MAX);
    assert_eq!(status, 0);
    assert!(requests > 40, "{requests} requests");
    let (mut ends, mut refused) = (0, 0);
    for left in 0..requests {
        let (status, output, _) = ran(input.as_bytes(), left, usize::MAX);
        let output = String::from_utf8(output).expect("an output that is no text");
        if status == 3 {
            assert_eq!(output, "", "request {left}");
            ends += 1;
            continue;
        }
        let replies: Vec<&str> = output.lines().collect();
        assert_eq!((status, replies.len()), (0, lines.len()), "request {left}");
        assert!(is_right(&lines, &replies), "request {left}:\n{output}");
        refused += usize::from(replies.contains(&"F6 no memory"));
    }
    assert!(
        ends > 3 && refused > 20,
        "{ends} runs ended, and {refused} had a line refused"
    );
}

#[test]
fn great_requests_are_refused() {
    let made =
        "with_capacity 0 1000000\ngrow 0 1000000\nfrom_iter 0 7 999999\ngrow_and_insert 0 999999\n";
    let input = format!("{made}len 0\nwith_capacity 0 200000\ntext 0\nlen 0");
    let wanted =
        "F6 no memory\nF6 no memory\nF6 no memory\nF6 no memory\n0\nok\nF6 no memory\n200000\n";
    let (status, output, _) = ran(input.as_bytes(), usize::MAX, 90_000);
    assert_eq!(
        (status, String::from_utf8_lossy(&output).as_ref()),
        (0, wanted)
    );
    let long_input = b"len 0\n".repeat(100_000);
    let long_output = [b"grow 0 9000\n".to_vec(), b"text 0\n".repeat(100)].concat();
    let long_list = [b"extend 0".to_vec(), b" 5".repeat(30_000)].concat();
    for (name, input) in [
        ("input", long_input),
        ("output", long_output),
        ("list", long_list),
    ] {
        assert_eq!(
            ran(&input, usize::MAX, usize::MAX).0,
            0,
            "a long {name} that has room"
        );
        let (status, output, _) = ran(&input, usize::MAX, 90_000);
        assert_eq!((status, output.len()), (3, 0), "a long {name}");
    }
}
