//! The search written plainly in Rust, to compare times with.
//! Arguments: a folder with a file domain.bin, and the number of rounds.

mod domain;
mod files;
mod search;

use std::error::Error;
use std::hint::black_box;
use std::{env, fs};

use domain::{Domain, Watched};
use files::File;

fn words(cost: Option<u32>) -> String {
    cost.map_or("-".to_string(), |cost| cost.to_string())
}

/// Searches for every goal in every round; the answers of the last round are printed.
fn search_rounds<D: Domain>(domain: &D, rounds: u32) {
    for round in 1..=rounds {
        for goal in 0..domain.goal_count() {
            let answer = black_box(search::least_costs(domain, goal));
            if round == rounds {
                let (without, with) = (words(answer.without), words(answer.with));
                println!(
                    "goal {goal} costs {without} {with} plan {}",
                    answer.plan.len()
                );
            }
        }
    }
}

fn main() -> Result<(), Box<dyn Error>> {
    let mut words = env::args().skip(1);
    let (Some(folder), Some(rounds)) = (words.next(), words.next()) else {
        return Err("a folder and a number of rounds are wanted".into());
    };
    let rounds = rounds.parse()?;
    let log = Vec::new();
    match files::read(&fs::read(format!("{folder}/domain.bin"))?)? {
        File::Card(domain) => search_rounds(&Watched { domain, log }, rounds),
        File::Map(domain) => search_rounds(&Watched { domain, log }, rounds),
    }
    Ok(())
}
