//! Checks a sheet, and runs it as a light barrier and a stop button tell their readings.
//! Its argument is the sheet: examples/readings.sheet.

use std::process::ExitCode;
use std::{env, fs};

/// The declarations of include/domgrauja.h, and a safe function for each call.
mod domgrauja {
    /// The number that a variable has in a state.
    #[repr(C)]
    #[derive(Clone, Copy)]
    pub struct Reading {
        pub state: u32,
        pub variable: u32,
        pub number: i64,
    }

    /// An answer. Numbers that it has no need of are 0.
    #[repr(C)]
    #[derive(Clone, Copy)]
    pub struct Answer {
        pub number: u32,
        pub line: u32,
        pub word: u32,
        pub statement: u32,
        pub variable: u32,
        pub finished: bool,
        pub states: usize,
        pub width: usize,
        pub length: usize,
    }

    unsafe extern "C" {
        fn domgrauja_check(text: *const u8, text_length: usize, sentence: *mut u8, sentence_length: usize) -> Answer;
        fn domgrauja_run_text(
            text: *const u8,
            text_length: usize,
            readings: *const Reading,
            readings_length: usize,
            states: usize,
            record: *mut u8,
            record_length: usize,
        ) -> Answer;
        fn domgrauja_run_numbers(
            text: *const u8,
            text_length: usize,
            readings: *const Reading,
            readings_length: usize,
            states: usize,
            numbers: *mut i64,
            numbers_length: usize,
        ) -> Answer;
    }

    // A slice's pointer is never null, and what it points to is as long as the slice.

    pub fn check(text: &[u8], sentence: &mut [u8]) -> Answer {
        unsafe { domgrauja_check(text.as_ptr(), text.len(), sentence.as_mut_ptr(), sentence.len()) }
    }

    pub fn run_text(text: &[u8], readings: &[Reading], states: usize, record: &mut [u8]) -> Answer {
        unsafe {
            domgrauja_run_text(
                text.as_ptr(),
                text.len(),
                readings.as_ptr(),
                readings.len(),
                states,
                record.as_mut_ptr(),
                record.len(),
            )
        }
    }

    pub fn run_numbers(text: &[u8], readings: &[Reading], states: usize, numbers: &mut [i64]) -> Answer {
        unsafe {
            domgrauja_run_numbers(
                text.as_ptr(),
                text.len(),
                readings.as_ptr(),
                readings.len(),
                states,
                numbers.as_mut_ptr(),
                numbers.len(),
            )
        }
    }
}

use domgrauja::{Answer, Reading, check, run_numbers, run_text};

/// Bytes that are room for any sentence.
const MOST_SENTENCE: usize = 96;

/// The most states that a run may be asked for.
const MOST_STATES: usize = 1000;

/// The number of a state that leaves something open.
const UNDETERMINED: u32 = 32;

/// What the barrier (variable 0) and the button (variable 1) tell, state by state.
const TOLD: [(i64, i64); 4] = [(1, 0), (0, 0), (1, 0), (1, 1)];

/// Says why a text is no sheet.
fn tell_refusal(text: &[u8]) {
    let mut sentence = [0; MOST_SENTENCE];
    let answer = check(text, &mut sentence);
    let reason = String::from_utf8_lossy(&sentence[..answer.length]);
    println!("refused: {}, line {}, word {}: {reason}", answer.number, answer.line, answer.word);
}

/// Says how a run stands.
fn tell_run(answer: Answer) {
    match answer {
        Answer { number: 0, finished: true, states, .. } => println!("finished with {states} states"),
        Answer { number: 0, states, .. } => println!("open with {states} states"),
        Answer { number: UNDETERMINED, variable, states, .. } => {
            println!("waits for variable {variable} in state {states}");
        }
        Answer { number, states, .. } => println!("number {number} at state {states}"),
    }
}

fn main() -> ExitCode {
    let Some(text) = env::args().nth(1).and_then(|path| fs::read(path).ok()) else {
        eprintln!("usage: example SHEET");
        return ExitCode::FAILURE;
    };
    tell_refusal(b"sheet=1\n");
    let sheet = check(&text, &mut []);
    if sheet.number != 0 {
        tell_refusal(&text);
        return ExitCode::FAILURE;
    }
    println!("a sheet with {} variables", sheet.width);

    let mut numbers = vec![0; 100 * sheet.width];
    let mut readings = Vec::new();
    let mut answer = sheet;
    // As the belt moves: after each state there are two readings more.
    for (state, (eye, stop)) in (0..).zip(TOLD) {
        readings.push(Reading { state, variable: 0, number: eye });
        readings.push(Reading { state, variable: 1, number: stop });
        answer = run_numbers(&text, &readings, MOST_STATES, &mut numbers);
        tell_run(answer);
    }
    for (k, state) in numbers.chunks(sheet.width).take(answer.states).enumerate() {
        print!("state {k}:");
        for number in state {
            print!(" {number}");
        }
        println!();
    }

    let mut record = vec![0; 100 * (12 + 13 * sheet.width)];
    let answer = run_text(&text, &readings, 2, &mut record);
    tell_run(answer);
    print!("{}", String::from_utf8_lossy(&record[..answer.length]));
    tell_run(run_text(&text, &readings, 4, &mut record[..3 * (12 + 13 * sheet.width)]));
    tell_run(run_text(&text, &readings, 0, &mut record));
    ExitCode::SUCCESS
}
