//! lexing RULES INPUT K [WAY]: processor time of `lexer` with the text of each lexeme, and of `scanner`, K times each, or of the way that
//! is named, `lex` or `scanner`.

use std::error::Error;
use std::ffi::c_long;
use std::{env, fs};

use lrlex::Definition;

unsafe extern "C" {
    safe fn clock() -> c_long;
}

fn lex(definition: &Definition, text: &str) -> Result<(), lrlex::Error> {
    let (before, mut found, mut bytes) = (clock(), 0, 0);
    for lexeme in definition.lexer(text)? {
        bytes += lexeme?.text().len();
        found += 1;
    }
    println!("Rust lex {} {}", clock() - before, if bytes > 0 { found } else { 0 });
    Ok(())
}

fn scan(definition: &Definition, text: &str) -> Result<(), lrlex::Error> {
    let (before, mut found) = (clock(), 0);
    for tile in definition.scanner(text)? {
        found += usize::from(tile?.tok_id().is_some());
    }
    println!("Rust scanner {} {found}", clock() - before);
    Ok(())
}

fn main() -> Result<(), Box<dyn Error>> {
    let words: Vec<_> = env::args().collect();
    let (rules, text) = (fs::read_to_string(&words[1])?, fs::read_to_string(&words[2])?);
    let way = words.get(4).map_or("", String::as_str);
    let definition: Definition = rules.parse()?;
    for _ in 0..words[3].parse()? {
        if way != "scanner" {
            lex(&definition, &text)?;
        }
        if way != "lex" {
            scan(&definition, &text)?;
        }
    }
    Ok(())
}
