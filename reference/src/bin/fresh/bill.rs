//! Fresh inputs of bill, for the program whose path is in `TREECOVER_CASES`: it reads records as they stand in
//! `stored.bin` and prints their texts one after another.

use crate::tally::Tally;
use reference::bill::{self, Answer};
use reference::generate::bills::any_input;
use reference::hex::hex;
use reference::rng::Rng;
use std::ffi::OsStr;
use std::io::Write;
use std::process::{Command, Stdio};
use std::slice;
use std::thread;

/// How many questions the program is asked at once: enough that starting it takes little of the time, and few enough to
/// be asked one by one if the texts differ.
const BATCH: u64 = 2_000;

struct Question {
    input: Vec<u8>,
    answer: Answer,
}

impl Question {
    fn any(rng: &mut Rng) -> Question {
        let input = any_input(rng);
        let answer = Answer::of(&input);
        Question { input, answer }
    }

    /// The tree sheet, if the input has the right length.
    fn tree(&self) -> Option<&[u8]> {
        bill::sheets(&self.input).ok().map(|[_, tree, _]| tree)
    }

    /// The kind byte (6), the input's length in two bytes, high byte first, and the input.
    fn record(&self) -> Vec<u8> {
        let length = u16::try_from(self.input.len()).expect("a length of two bytes");
        [&[6], &length.to_be_bytes()[..], &self.input].concat()
    }
}

pub fn run(count: u64, seed: u64) -> Tally {
    let program = std::env::var_os("TREECOVER_CASES").expect("the program's path in TREECOVER_CASES");
    let mut rng = Rng::new(seed);
    let mut tally = Tally::default();
    let mut left = count;
    while left > 0 {
        let size = left.min(BATCH);
        let batch: Vec<Question> = (0..size).map(|_| Question::any(&mut rng)).collect();
        compare(&mut tally, &program, &batch);
        left -= size;
    }
    tally
}

/// Asks all at once and, where that gives another text, one by one to find those that disagree.
fn compare(tally: &mut Tally, program: &OsStr, batch: &[Question]) {
    batch.iter().filter_map(Question::tree).for_each(|tree| tally.meet(tree));
    let expected: String = batch.iter().map(|question| question.answer.text()).collect();
    if by_product(program, batch) == expected {
        batch.iter().for_each(|question| tally.agree(question.answer.name()));
        return;
    }
    let mut each_agrees = true;
    for question in batch {
        let (expected, actual) = (question.answer.text(), by_product(program, slice::from_ref(question)));
        if actual == expected {
            tally.agree(question.answer.name());
        } else {
            each_agrees = false;
            tally.disagree(|| story(question, &expected, &actual));
        }
    }
    if each_agrees {
        tally.disagree(|| format!("  {} inputs at once, each of which agrees alone", batch.len()));
    }
}

/// What the program prints, and how it ended if not well.
fn by_product(program: &OsStr, batch: &[Question]) -> String {
    let records: Vec<u8> = batch.iter().flat_map(Question::record).collect();
    let mut command = Command::new(program);
    let mut child = command.stdin(Stdio::piped()).stdout(Stdio::piped()).spawn().expect("the program runs");
    let mut stdin = child.stdin.take().expect("a pipe");
    // The program may print before it has read all, or end; then its text tells.
    let writer = thread::spawn(move || stdin.write_all(&records).is_ok());
    let output = child.wait_with_output().expect("the program ends");
    writer.join().expect("the writer ends");
    let text = String::from_utf8_lossy(&output.stdout).into_owned();
    if output.status.success() {
        text
    } else {
        format!("{text}{}\n", output.status)
    }
}

fn story(question: &Question, expected: &str, actual: &str) -> String {
    let lines = |text: &str| text.lines().map(|line| format!("\n    {line}")).collect::<String>();
    let Question { input, .. } = question;
    let (expected, actual) = (lines(expected), lines(actual));
    format!("  input of {} bytes: {}\n  reference:{expected}\n  product:{actual}", input.len(), hex(input))
}
