//! Runs a script, line by line, and shows what was expected and what the library gave.

use crate::script::parse::case_of;
use crate::script::write::step_words;
use crate::sequences::run::Run;
use crate::stores::call::Step;
use registers::Answer;

fn answer_words(answer: Answer) -> String {
    match (answer.number, answer.present) {
        (0, 0) => String::from("accepted, no value"),
        (0, _) => format!("accepted, value {}", answer.value),
        (number, 0) => format!("refused {number}"),
        (number, _) => format!("refused {number}, record {}", answer.value),
    }
}

/// True if everything agreed.
pub fn replay(file: &str) -> bool {
    let script = std::fs::read_to_string(file).map_err(|problem| problem.to_string());
    let case = match script.and_then(|text| case_of(&text)) {
        Ok(case) => case,
        Err(problem) => {
            println!("{file}: {problem}");
            return false;
        }
    };
    let mut run = Run::start(&case.start);
    for step in case.steps {
        println!("{}", step_words(step));
        if !replay_step(&mut run, step) {
            return false;
        }
    }
    println!("the script agreed");
    true
}

fn replay_step(run: &mut Run, step: Step) -> bool {
    match run.step(step) {
        Ok(seen) => {
            let answers = [("journal", seen.journal), ("map", seen.map)];
            for (store, answer) in answers.into_iter().filter_map(|(store, answer)| Some((store, answer?))) {
                println!("    {store}: {}", answer_words(answer));
            }
            true
        }
        Err(difference) => {
            println!("    DIFFERS: {}", difference.what);
            println!("    expected {}", difference.expected);
            println!("    got      {}", difference.got);
            false
        }
    }
}
