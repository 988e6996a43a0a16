//! Prints the tokens of a text, as the program `lrlex` does: `tokens RULES INPUT`

use std::collections::HashMap;
use std::env;
use std::error::Error;
use std::fs;
use std::io::{self, BufWriter, Write};
use std::process::ExitCode;

use lrlex::Definition;

fn run(rules: &str, input: &str) -> Result<ExitCode, Box<dyn Error>> {
    let definition: Definition = fs::read_to_string(rules)?.parse()?;
    let input = fs::read_to_string(input)?;
    let mut names = HashMap::new();
    let mut out = BufWriter::new(io::stdout().lock());
    for item in definition.lexer(&input)? {
        match item {
            Ok(lexeme) => {
                let id = lexeme.tok_id();
                let name = names.entry(id).or_insert_with(|| definition.name_of(id).unwrap_or_default());
                writeln!(out, "{name} {}", lexeme.text())?;
            }
            Err(error) => {
                writeln!(out, "Couldn't lex input starting at byte {}", error.start)?;
                out.flush()?;
                return Ok(ExitCode::FAILURE);
            }
        }
    }
    out.flush()?;
    Ok(ExitCode::SUCCESS)
}

fn main() -> ExitCode {
    let words: Vec<String> = env::args().skip(1).collect();
    let [rules, input] = words.as_slice() else {
        eprintln!("tokens RULES INPUT");
        return ExitCode::from(2);
    };
    run(rules, input).unwrap_or_else(|error| {
        eprintln!("{error}");
        ExitCode::FAILURE
    })
}
