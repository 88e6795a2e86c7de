//! Prints from the model what the proved program `vectors` has to print for
//! the cases on standard input, which its file `stdin` describes.

use model::{
    ANSWER_SIZE, EVENT_SIZE, KeyTable, Settings, TABLE_SIZE, run_with_table, table_refusal,
};
use std::io::{self, Read};
use std::process::ExitCode;

/// What an answer buffer holds before a run.
const MARK: u8 = 0xA5;
/// The longest list and the largest buffer that the program has.
const LIST_SIZE: usize = 21_003;
const BUFFER_SIZE: usize = 63_027;

/// A case as far as it has been read. Its name is gone once it has been run.
struct Case {
    name: Option<String>,
    settings: Settings,
    table: Vec<u8>,
    list: Vec<u8>,
}

fn number(word: &str) -> Option<usize> {
    let sound = word.bytes().all(|c| c.is_ascii_digit());
    if sound { word.parse().ok() } else { None }
}

fn hexadecimal(text: &str) -> Option<Vec<u8>> {
    let digits: String = text.split(' ').collect();
    let sound = |c: char| c.is_ascii_digit() || ('A'..='F').contains(&c);
    if !digits.len().is_multiple_of(2) || !digits.chars().all(sound) {
        return None;
    }
    let byte = |at| u8::from_str_radix(&digits[at..at + 2], 16).ok();
    (0..digits.len()).step_by(2).map(byte).collect()
}

fn printed(bytes: &[u8]) -> String {
    let parts: Vec<String> = bytes.iter().map(|byte| format!("{byte:02X}")).collect();
    parts.join(" ")
}

/// A sum over bytes that goes by their order.
fn digest(bytes: &[u8]) -> u16 {
    let sum = bytes
        .iter()
        .fold(1u32, |sum, &byte| (sum * 31 + u32::from(byte)) % 65_521);
    sum as u16
}

fn print_written(written: &[u8]) {
    let sum = printed(&digest(written).to_be_bytes());
    match written.chunks_exact(ANSWER_SIZE).last() {
        Some(last) => println!(", sum {sum}, last {}", printed(last)),
        None => println!(", sum {sum}, none"),
    }
}

impl Case {
    fn ordinary() -> Case {
        let mut table = KeyTable::BUILT_IN.0.to_vec();
        table.push(0);
        Case {
            name: None,
            settings: Settings::ORDINARY,
            table,
            list: Vec::new(),
        }
    }

    fn run(&self, list: &[u8], answers: &mut [u8]) -> u8 {
        run_with_table(self.settings, &self.table[..TABLE_SIZE], list, answers)
    }

    /// The list, and each answer.
    fn run_whole(&mut self) -> Option<()> {
        if LIST_SIZE < self.list.len() {
            return None;
        }
        let name = self.name.take()?;
        let mut answers = vec![MARK; self.list.len() / EVENT_SIZE * ANSWER_SIZE];
        match self.run(&self.list, &mut answers) {
            0 => println!("{name}"),
            refusal => {
                println!("{name}: refusal {refusal:02X}");
                return Some(());
            }
        }
        for answer in answers.chunks_exact(ANSWER_SIZE) {
            println!("{}", printed(answer));
        }
        Some(())
    }

    /// The list over and over, of which `bytes` are run with `space` bytes for
    /// the answers.
    fn repeat(&mut self, bytes: usize, space: usize) -> Option<()> {
        if self.list.is_empty() || LIST_SIZE < bytes || BUFFER_SIZE < space {
            return None;
        }
        let name = self.name.take()?;
        let list: Vec<u8> = self.list.iter().copied().cycle().take(bytes).collect();
        let mut answers = [MARK; BUFFER_SIZE];
        let refusal = self.run(&list, &mut answers[..space]);
        let accepted = if refusal == 0 { bytes / EVENT_SIZE } else { 0 };
        let (written, rest) = answers.split_at(accepted * ANSWER_SIZE);
        let kept = rest.iter().all(|&byte| byte == MARK);
        let verdict = if kept { "untouched" } else { "touched" };
        print!("{name}: refusal {refusal:02X}, {verdict}");
        if refusal == 0 {
            print_written(written);
        } else {
            println!();
        }
        Some(())
    }

    /// The check of as many bytes of the table and the zero behind it.
    fn check(&mut self, length: usize) -> Option<()> {
        let refusal = table_refusal(self.table.get(..length)?);
        println!("{}: refusal {refusal:02X}", self.name.take()?);
        Some(())
    }

    /// A line by its first word: nothing where it cannot be read.
    fn obey(&mut self, word: &str, rest: &str) -> Option<()> {
        match word {
            "" if rest.is_empty() => {}
            "#" => {}
            "name" => {
                if self.name.is_some() {
                    return None;
                }
                *self = Case::ordinary();
                self.name = Some(rest.to_string());
            }
            "start" => {
                let [options, version] = hexadecimal(rest)?.try_into().ok()?;
                self.settings = Settings::from_options(options, version);
            }
            "entry" => {
                let [at, value]: [u8; 2] = hexadecimal(rest)?.try_into().ok()?;
                self.table[usize::from(at)] = value;
            }
            "events" => self.list.extend(hexadecimal(rest)?),
            "run" if rest.is_empty() => self.run_whole()?,
            "repeat" => {
                let (bytes, space) = rest.split_once(' ')?;
                self.repeat(number(bytes)?, number(space)?)?;
            }
            "check" => self.check(number(rest)?)?,
            _ => return None,
        }
        Some(())
    }
}

fn main() -> io::Result<ExitCode> {
    let mut text = String::new();
    io::stdin().read_to_string(&mut text)?;
    let mut case = Case::ordinary();
    for (index, line) in text.lines().enumerate() {
        let (word, rest) = line.split_once(' ').unwrap_or((line, ""));
        if case.obey(word, rest).is_none() {
            eprintln!("line {}: {line}", index + 1);
            return Ok(ExitCode::FAILURE);
        }
    }
    Ok(ExitCode::SUCCESS)
}
