//! `edges CRATES_FOLDER SECOND_PROGRAM EXAMPLES_FOLDER [SEED]` runs the programs of a folder of crates,
//! each `NAME/out/NAME` there, as a user, a pipe or a terminal meets them, and compares their answers
//! with those of the second program. A line for each case that fails, and a count last. Exit status 1
//! if a case fails, 2 if none could be tried.

mod asked;
mod check;
mod count;
mod feed;
mod large;
mod lines;
mod longest;
mod prompt;
mod report;
mod run;
mod second;
mod setting;
mod slow;
mod stack;
mod terminal;
mod unwritten;
mod usage;

use std::process::ExitCode;

use report::Report;
use setting::Setting;

const USAGE: &str = "usage: edges CRATES_FOLDER SECOND_PROGRAM EXAMPLES_FOLDER [SEED]";

fn main() -> ExitCode {
    let words: Vec<String> = std::env::args().skip(1).collect();
    let setting = match setting_of(&words) {
        Ok(setting) => setting,
        Err(message) => {
            eprintln!("{message}");
            return ExitCode::from(2);
        }
    };
    let report = run_all(&setting);
    if report.failed() > 0 {
        println!("seed {}", setting.seed);
    }
    println!("{}", report.last_line());
    ExitCode::from(u8::from(report.failed() > 0))
}

fn setting_of(words: &[String]) -> Result<Setting, String> {
    let (places, seed) = match words {
        [places @ .., seed] if places.len() == 3 => {
            (places, seed.parse().map_err(|_| USAGE.to_string())?)
        }
        places => (places, 1),
    };
    let [crates, second, examples] = places else {
        return Err(USAGE.to_string());
    };
    Setting::new(crates, second, examples, seed)
}

fn run_all(setting: &Setting) -> Report {
    let mut report = Report::new();
    let groups: [fn(&Setting, &mut Report); 7] = [
        usage::run,
        unwritten::run,
        prompt::run,
        slow::run,
        large::run,
        stack::run,
        count::run,
    ];
    for group in groups {
        group(setting, &mut report);
    }
    report
}
