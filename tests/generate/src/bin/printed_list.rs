//! Prints from the model what `panelrun` has to print for the list of events
//! on standard input.

use model::{ANSWER_SIZE, EVENT_SIZE, Settings, run};
use std::io::{self, Read};

const HEADER: &str = "rf rd old st p2 pu to fl fh";

fn line(answer: &[u8]) -> String {
    let parts: Vec<String> = answer.iter().map(|byte| format!("{byte:02X}")).collect();
    parts.join(" ")
}

fn main() -> io::Result<()> {
    let mut list = Vec::new();
    io::stdin().read_to_end(&mut list)?;
    let mut answers = vec![0; list.len() / EVENT_SIZE * ANSWER_SIZE];
    match run(Settings::ORDINARY, &list, &mut answers) {
        0 => {
            println!("{HEADER}");
            for answer in answers.chunks_exact(ANSWER_SIZE) {
                println!("{}", line(answer));
            }
        }
        refusal => println!("refused {refusal}"),
    }
    Ok(())
}
