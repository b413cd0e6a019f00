//! Sheets that end, or hold a telling token, just where a limit is reached or a number stands.

use crate::call::Input;
use crate::random::Random;
use crate::reference::MOST_NODES;
use crate::sheets::{self, Token};
use crate::telling;

fn is_node(token: &Token) -> bool {
    b"tm!XFGUR&|[".contains(&token[0])
}

fn is_number(token: &Token) -> bool {
    token.iter().any(u8::is_ascii_digit)
}

fn places(tokens: &[Token], of: fn(&Token) -> bool) -> Vec<usize> {
    let places = 0..tokens.len();
    places.filter(|&at| of(&tokens[at])).collect()
}

/// Where the last nodes that fit or the first that don't stand, or any number.
fn brink(random: &mut Random, tokens: &[Token]) -> usize {
    let nodes = places(tokens, is_node);
    let numbers = places(tokens, is_number);
    if nodes.len() >= MOST_NODES && random.percent(70) {
        let last = nodes.len().min(MOST_NODES + 2) - 1;
        return nodes[random.between(MOST_NODES - 2, last)];
    }
    match numbers.is_empty() {
        true => random.position(tokens.len()),
        false => random.pick(&numbers),
    }
}

/// One or two clauses, the last of which has another token at the brink and may end there.
pub fn sheet(random: &mut Random) -> Input {
    let mut tokens = match random.percent(50) {
        true => sheets::long_clause(random),
        false => sheets::any_clause(random),
    };
    let at = brink(random, &tokens);
    match random.below(4) {
        0 => (),
        1 => tokens[at] = telling::token(random),
        _ => tokens[at] = telling::alike(random, &tokens[at]),
    }
    let behind = match random.percent(60) {
        true => tokens.split_off(at + 1).concat(),
        false => Vec::new(),
    };
    let mut lines = vec![tokens];
    if random.percent(10) {
        lines.insert(0, sheets::any_clause(random));
    }
    let mut bytes = sheets::sheet_of(random, &lines);
    if !behind.is_empty() {
        bytes.pop();
    }
    if random.percent(30) {
        bytes.push(telling::byte(random));
    }
    Input { bytes, behind }
}
