//! oracle answer CASES
//!     prints the model's answer to each case of a file.
//! oracle generate SEED FIRST COUNT CASES ANSWERS
//!     writes cases and answers to two files. Cases are numbered from 0, and each depends on the seed and its number alone.
//!     Prints a line "OPERATION REFUSAL COUNT" for each pair that occurred; refusal 0 is "granted".

mod cases;
mod generate;
mod model;

use std::collections::BTreeMap;
use std::fs;
use std::io::Write;

fn answer(path: &str) {
    let bytes = fs::read(path).expect("the case file");
    let out = std::io::stdout();
    let mut out = std::io::BufWriter::new(out.lock());
    let mut at = 0;
    while at < bytes.len() {
        let (line, _) = cases::Case::read(&bytes, &mut at).answer();
        writeln!(out, "{line}").expect("standard output");
    }
}

fn generate(seed: u64, first: u64, count: u64, cases_path: &str, answers_path: &str) {
    let mut cases = Vec::new();
    let mut answers = Vec::new();
    let mut counts: BTreeMap<(usize, u32), u64> = BTreeMap::new();
    for index in first..first + count {
        let case = generate::case(seed, index);
        let (line, refusal) = case.answer();
        case.write(&mut cases);
        answers.extend(line.as_bytes());
        answers.push(b'\n');
        *counts.entry((case.operation(), refusal)).or_default() += 1;
    }
    fs::write(cases_path, cases).expect("the case file");
    fs::write(answers_path, answers).expect("the answers");
    for ((operation, refusal), count) in counts {
        println!("{operation} {refusal} {count}");
    }
}

fn main() {
    let words: Vec<String> = std::env::args().skip(1).collect();
    let words: Vec<&str> = words.iter().map(|word| word.as_str()).collect();
    match words[..] {
        ["answer", path] => answer(path),
        ["generate", seed, first, count, cases, answers] => {
            let number = |word: &str| word.parse().expect("a number");
            generate(number(seed), number(first), number(count), cases, answers)
        }
        _ => panic!("usage: oracle answer CASES | oracle generate SEED FIRST COUNT CASES ANSWERS"),
    }
}
