//! The program `sheetlog`: its sample, its grammar, and input of any shape.

mod common;

use std::io::{self, Read, Write};
use std::process::{Command, Stdio};

use common::{in_full, lists};
use reference::layout::RECORD_WORDS;
use reference::line::{spaced, LONGEST_LINE};
use reference::simulate::{simulate, Options};
use reference::{sheetlog, status, Call, STATE_WORDS};

/// 01's input, each record with a tag.
const SAMPLE: &str = "\
O 4
V 1 0 0 0 0 10 0 0 0 0 0 0
V 1 1 0 0 0 11 0 0 0 0 0 0
V 1 2 0 0 0 12 0 0 0 0 0 0
F 2 0 7 0 0 20 0 0 0 0 0 0
F 2 1 7 0 0 21 0 0 0 0 0 0
F 2 3 7 0 0 23 0 0 0 0 0 0
";

const SAMPLE_ANSWERS: &str = "\
0 1 0 0 0
0 1 0 0 0
0 1 0 0 0
0 2 0 0 0
0 2 0 0 0
0 2 0 0 0
0 2 1 1 1
L 16
J 16
";

/// Runs the built program.
fn run_program(input: &[u8]) -> String {
    let mut child = Command::new(env!("CARGO_BIN_EXE_sheetlog"))
        .stdin(Stdio::piped())
        .stdout(Stdio::piped())
        .spawn()
        .expect("the program starts");
    let mut stdin = child.stdin.take().expect("its input is piped");
    let input = input.to_vec();
    let writer = std::thread::spawn(move || stdin.write_all(&input));
    let output = child.wait_with_output().expect("the program ends");
    writer
        .join()
        .expect("the writer ends")
        .expect("all input is read");
    assert!(output.status.success());
    String::from_utf8(output.stdout).expect("the output is text")
}

/// Runs the program's code on input given in blocks of some size.
fn run_in_blocks(input: &[u8], size: usize) -> String {
    struct Blocks<'a>(&'a [u8], usize);
    impl Read for Blocks<'_> {
        fn read(&mut self, buffer: &mut [u8]) -> io::Result<usize> {
            let length = self.1.min(buffer.len());
            self.0.read(&mut buffer[..length])
        }
    }
    let mut output = Vec::new();
    sheetlog::run(&mut Blocks(input, size), &mut output).expect("no input fails");
    String::from_utf8(output).expect("the output is text")
}

fn answers(input: &[u8]) -> Vec<String> {
    run_in_blocks(input, usize::MAX)
        .lines()
        .map(str::to_owned)
        .collect()
}

#[test]
fn the_sample() {
    let sample = in_full(SAMPLE);
    assert_eq!(run_program(sample.as_bytes()), SAMPLE_ANSWERS);
    for size in [1, 2, 7, 1000] {
        assert_eq!(run_in_blocks(sample.as_bytes(), size), SAMPLE_ANSWERS);
    }
}

/// Records of one number more or less, and 01's of a single tag, are of another form.
#[test]
fn records_of_other_lengths() {
    for letter in ['V', 'F'] {
        for length in 0..=RECORD_WORDS + 8 {
            let words: Vec<u32> = (1..=length as u32).collect();
            let line = spaced(letter, &words) + "\n";
            let expected = if length == RECORD_WORDS {
                "3 0 0 0 0"
            } else {
                "?"
            };
            assert_eq!(answers(line.as_bytes()), [expected, "L", "J"], "{line}");
        }
    }
    let tagged = "V 1 0 0 0 0 10 0 0 0 0 0 0\n";
    let in_full = in_full(tagged);
    assert_eq!(answers(in_full.as_bytes()), ["3 0 0 0 0", "L", "J"]);
    assert_eq!(answers(tagged.as_bytes()), ["?", "L", "J"]);
}

#[test]
fn no_input() {
    assert_eq!(run_program(b""), "L\nJ\n");
}

#[test]
fn calls_before_an_opening() {
    let input = in_full(
        "V 1 0 0 0 0 10 0 0 0 0 0 0\nF 1 0 0 0 0 10 0 0 0 0 0 0\nT 1 0\nN 1 0\nO 5\nO 16\n",
    );
    let three = "3 0 0 0 0";
    let expected = [
        three,
        three,
        three,
        three,
        "2 0 0 0 0",
        "0 1 0 0 0",
        "L",
        "J",
    ];
    assert_eq!(answers(input.as_bytes()), expected);
}

const OTHER_FORMS: [&[u8]; 38] = [
    b"",
    b" ",
    b"O",
    b"O ",
    b"O  4",
    b" O 4",
    b"O 4 ",
    b"O 4 4",
    b"O4",
    b"o 4",
    b"O 04",
    b"O 00",
    b"O +4",
    b"O -4",
    b"O 4.0",
    b"O 0x4",
    b"O 4294967296",
    b"O 10000000000",
    b"O 99999999999999999999",
    b"O 4\r",
    b"O\t4",
    b"O 4\0",
    b"T 1",
    b"T 1 0 0",
    b"T 01 0",
    b"N 1",
    b"N 1 0 ",
    b"T 1  0",
    b"V 1 0 0 0 0 10 0 0 0 0 0",
    b"V 1 0 0 0 0 10 0 0 0 0 0 0 0",
    b"F",
    b"X 1",
    b"\xff\xfe",
    b"? 1 0",
    b"O 7 1",
    b"P 1",
    b"S",
    b"B 1 7",
];

#[test]
fn lines_of_another_form() {
    for line in OTHER_FORMS {
        let input = [b"O 7\n", line, b"\nT 1 0\n"].concat();
        let expected = ["0 1 0 0 0", "?", "0 1 0 0 0", "L", "J"];
        assert_eq!(
            answers(&input),
            expected,
            "{:?}",
            String::from_utf8_lossy(line)
        );
    }
}

#[test]
fn numbers_at_their_ends() {
    let mut input = in_full(
        "O 0\nO 4294967295\nO 4\nT 4294967295 0\nT 1 4294967295\nN 0 0\n\
        V 1 0 0 0 0 4294967295 0 0 0 0 0 0\n",
    );
    input += &spaced('V', &[u32::MAX; RECORD_WORDS]);
    input.push('\n');
    let numbers: Vec<String> = answers(input.as_bytes())
        .iter()
        .map(|line| line[..1].to_owned())
        .collect();
    assert_eq!(numbers, ["2", "2", "0", "5", "6", "5", "0", "5", "L", "J"]);
}

#[test]
fn bytes_after_the_last_line_feed() {
    assert_eq!(answers(b"O 4"), ["?", "L", "J"]);
    assert_eq!(answers(b"O 4\nT 1 0"), ["0 1 0 0 0", "?", "L", "J"]);
    assert_eq!(answers(b"O 4\n\n"), ["0 1 0 0 0", "?", "L", "J"]);
}

#[test]
fn long_lines() {
    let mut input = b"O 4\n".to_vec();
    input.extend(b"T 1 0".iter().chain(&[b' '; 300_000]).chain(b"\n"));
    input.extend([b'0'; 200_000].iter().chain(b"\nT 1 0\n"));
    input.extend([0xFF; 500_000]);
    for size in [LONGEST_LINE, LONGEST_LINE + 1, 4096, usize::MAX] {
        assert_eq!(
            run_in_blocks(&input, size),
            "0 1 0 0 0\n?\n?\n0 1 0 0 0\n?\nL\nJ\n"
        );
    }
}

#[test]
fn lines_cut_at_the_longest_call() {
    let line = spaced('V', &[u32::MAX; RECORD_WORDS]);
    assert_eq!(line.len(), LONGEST_LINE);
    assert_eq!(
        answers(format!("{line}\n").as_bytes()),
        ["3 0 0 0 0", "L", "J"]
    );
    for more in [" ", "0", " 1", "x"] {
        assert_eq!(
            answers(format!("{line}{more}\n").as_bytes()),
            ["?", "L", "J"]
        );
    }
}

#[test]
fn simulated_runs_as_lines() {
    for n in [4, 16] {
        let watchers = Options {
            members: 0,
            bundles: 0,
            buffers: 0,
            ..Options::wild()
        };
        for calls in simulate(5, n, &watchers).replicas {
            let mut state = vec![0; STATE_WORDS];
            let mut expected = Vec::new();
            for call in &calls {
                let bad =
                    matches!(call, Call::Vertex(r) | Call::First(r) if r.len() != RECORD_WORDS);
                if bad {
                    expected.push("?".to_owned());
                    continue;
                }
                assert_eq!(Call::parse(call.line().as_bytes()).as_ref(), Some(call));
                let number = call.apply(&mut state).number;
                let now = status(&state);
                let head = [
                    now.current_round,
                    now.committed_round,
                    now.leader_count,
                    now.journal_count,
                ];
                expected.push(format!(
                    "{number} {} {} {} {}",
                    head[0], head[1], head[2], head[3]
                ));
            }
            let (leaders, journal) = lists(&state);
            expected.push(spaced('L', &leaders));
            expected.push(spaced('J', &journal));
            let input: String = calls.iter().map(|call| call.line() + "\n").collect();
            let output = run_program(input.as_bytes());
            assert_eq!(output.lines().collect::<Vec<_>>(), expected);
        }
    }
}

#[test]
fn many_lines() {
    let mut input = b"O 4\n".to_vec();
    input.extend(b"?\nT 40 0\nT 1 0\n".repeat(20_000));
    let output = run_program(&input);
    assert_eq!(output.lines().count(), 1 + 60_000 + 2);
    assert!(output.ends_with("?\n5 1 0 0 0\n12 1 0 0 0\nL\nJ\n"));
}
