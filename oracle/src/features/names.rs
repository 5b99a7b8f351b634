//! Features of names for the lexical calls.

use super::Features;
use crate::planner::reach;

pub fn features(name: &str) -> Features {
    let mut seen = Features::default();
    spelling(&mut seen, name);
    tokens(&mut seen, name);
    range(&mut seen, name);
    seen
}

pub fn has_program(name: &str) -> bool {
    name.get(..8).is_some_and(|head| head.eq_ignore_ascii_case("program:"))
}

/// Whether digits after a bracket, comma or brace begin with a zero that is not the number 0.
pub fn leading_zeros(name: &str) -> bool {
    name.split(['[', ',', '{']).skip(1).any(|rest| {
        let digits = rest.bytes().take_while(u8::is_ascii_digit).count();
        digits > 1 && rest.starts_with('0')
    })
}

fn spelling(seen: &mut Features, name: &str) {
    let program = has_program(name);
    seen.when(name.is_empty(), "empty name");
    seen.when(name.len() > 100, "more than 100 bytes");
    seen.when(name.len() == 136, "136 bytes");
    seen.when(name.contains(' '), "a space");
    seen.when(program, "program part");
    seen.when(program && !name.starts_with("Program:"), "program part in another case");
    seen.when(program && !name.contains('.'), "program part without a dot");
    seen.when(leading_zeros(name), "leading zeros");
    let stripped = crate::plc::reach::strip(name);
    seen.when(stripped.len() < name.len(), "brackets or braces dropped");
    seen.when(unclosed(name, '[', ']'), "unclosed bracket");
    seen.when(unclosed(name, '{', '}'), "unclosed brace");
    seen.when(stripped.contains([']', '}']), "a closing one left alone");
}

fn unclosed(name: &str, open: char, close: char) -> bool {
    name.rfind(open).is_some_and(|place| !name[place..].contains(close))
}

fn tokens(seen: &mut Features, name: &str) {
    let Some(tokens) = reach::tokens(name) else {
        seen.when(true, "no tokens");
        seen.when(reach::tokens(&name.replace(|c: char| c.is_ascii_digit(), "1")).is_some(), "no tokens by a digit");
        return;
    };
    let indexes = || tokens.iter().flat_map(|t| &t.indexes);
    seen.when(tokens.len() == 1, "one token");
    seen.when(tokens.len() > 4, "more than four tokens");
    seen.when(has_program(name), "tokens behind a program part");
    seen.when(tokens.iter().any(|t| t.indexes.len() == 1), "one index");
    seen.when(tokens.iter().any(|t| t.indexes.len() > 1), "several indexes");
    seen.when(indexes().any(|i| *i > 255), "an index of 256 or more");
    seen.when(indexes().any(|i| *i == usize::MAX), "the largest index");
    let adjacent = tokens.windows(2).any(|w| !w[0].indexes.is_empty() && !w[1].indexes.is_empty());
    seen.when(adjacent, "two brackets in a row");
}

fn range(seen: &mut Features, name: &str) {
    match reach::range(name) {
        Some((base, count)) => {
            seen.when(true, "a range");
            seen.when(base.contains('{'), "a range of a range");
            seen.when(count == 0, "a range of none");
            seen.when(count == usize::MAX, "the largest range");
        }
        None => {
            seen.when(name.ends_with('}'), "no range, but a closing brace");
            let big = name.rsplit('{').next().unwrap_or_default().trim_end_matches('}');
            let digits = big.len() > 18 && big.bytes().all(|b| b.is_ascii_digit());
            seen.when(digits && name.ends_with('}'), "a range over 64 bits");
        }
    }
}
