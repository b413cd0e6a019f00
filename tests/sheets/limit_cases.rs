//! Sheets at the limits and past them, with their verdicts, written by hand: lines, nodes, levels
//! and length.

use crate::short_cases::{case, Case};

const LINE: &str = "true\n";

fn lines(count: usize, more: &str) -> String {
    LINE.repeat(count) + more
}

fn clauses() -> Vec<Case> {
    let case = |sheet: String, number, offset| case("32 clauses", sheet, number, offset);
    vec![
        case(lines(31, ""), 0, 0),
        case(lines(32, ""), 0, 0),
        case(lines(33, ""), 14, 160),
        case(lines(34, ""), 14, 160),
        case(lines(32, " "), 14, 160),
        case(lines(32, "\n"), 14, 160),
        case(lines(32, "\0"), 14, 160),
        case(lines(32, ")"), 14, 160),
        case(lines(32, "t"), 14, 160),
        case(lines(32, "\u{e9}"), 14, 160),
        case(lines(32, "m32"), 14, 160),
        case(lines(32, "[m32,1000]\n"), 14, 160),
        case(lines(32, "    true\n"), 14, 160),
        case(lines(31, " "), 13, 156),
        case(lines(31, "\n"), 13, 155),
        case(lines(31, "\ntrue\n"), 13, 155),
        case(lines(31, "true"), 13, 159),
        case(lines(31, "truex\ntrue\n"), 13, 159),
        case(lines(31, "[m32,1]\ntrue\n"), 15, 157),
        case(lines(1, "\n") + &lines(40, ""), 13, 5),
        case(" true \n".repeat(33), 14, 224),
    ]
}

/// `true` and so many times `&true`: 2 n + 1 nodes in 4 + 5 n bytes.
fn chain(n: usize) -> String {
    String::from("true") + &"&true".repeat(n)
}

/// The same of marks: 2 n + 1 nodes in 2 + 3 n bytes.
fn marks(n: usize) -> String {
    String::from("m0") + &"&m0".repeat(n)
}

/// Counts joined by `&`: 3 n + 2 nodes in 6 + 7 n bytes.
fn counts(n: usize) -> String {
    String::from("[m0,1]") + &"&[m0,1]".repeat(n)
}

fn last_node() -> Vec<Case> {
    let full = String::from("!") + &chain(63);
    let case = |more: &str, number, offset| {
        let sheet = full.clone() + more;
        case("after 128 nodes", sheet, number, offset)
    };
    vec![
        case("\n", 0, 0),
        case("  \n", 0, 0),
        case("\ntrue\n", 0, 0),
        case("", 13, 320),
        case("&", 14, 320),
        case("|true\n", 14, 320),
        case("Utrue\n", 14, 320),
        case("R", 14, 320),
        case("  &true\n", 14, 322),
        case(")\n", 13, 320),
        case("x\n", 13, 320),
        case("true\n", 13, 320),
        case("!true\n", 13, 320),
        case("[m0,1]\n", 13, 320),
        case("(true)\n", 13, 320),
        case("\n\n", 13, 321),
        case("\nx", 13, 321),
    ]
}

fn surplus_node() -> Vec<Case> {
    let full = chain(63) + "&";
    let case = |more: &str, number, offset| {
        let sheet = full.clone() + more;
        case("at 128 nodes", sheet, number, offset)
    };
    vec![
        case("true\n", 14, 320),
        case("true", 14, 320),
        case("truex", 14, 320),
        case(" true", 14, 321),
        case("tru", 13, 323),
        case("trux", 13, 323),
        case("t", 13, 321),
        case("", 13, 320),
        case("\n", 13, 320),
        case("!true\n", 14, 320),
        case("X", 14, 320),
        case("F", 14, 320),
        case("G", 14, 320),
        case("[", 14, 320),
        case("  [", 14, 322),
        case("[m32,1]\n", 14, 320),
        case("(true)\n", 14, 321),
        case("((true))\n", 14, 322),
        case("(", 13, 321),
        case("()", 13, 321),
        case("&", 13, 320),
        case("m0", 13, 320),
        case("m32", 13, 320),
    ]
}

fn nodes_of_counts() -> Vec<Case> {
    let case = |sheet: String, number, offset| case("nodes of counts", sheet, number, offset);
    let inner = |front: &str, n: usize, more: &str| String::from(front) + &marks(n) + more;
    vec![
        case(inner("[", 63, ",1]\n"), 0, 0),
        case(inner("[", 63, ",100%]\n"), 0, 0),
        case(inner("[", 63, ",1000]\n"), 15, 193),
        case(inner("[", 63, ",101%]\n"), 15, 193),
        case(inner("[", 63, "&"), 14, 192),
        case(inner("[", 63, ",1]&true\n"), 14, 195),
        case(inner("[", 63, ",1]x"), 13, 195),
        case(inner("[", 62, "&m31,1]\n"), 0, 0),
        case(inner("[", 62, "&m32,1]\n"), 15, 191),
        case(inner("![", 62, "&m0,1]\n"), 14, 191),
        case(inner("![", 62, "&m0"), 14, 191),
        case(inner("![", 62, "&m31"), 14, 191),
        case(inner("![", 62, "&m32"), 14, 191),
        case(inner("![", 62, "& m32"), 14, 192),
        case(inner("![", 62, "&m01"), 14, 191),
        case(inner("![", 62, "&m0x"), 14, 191),
        case(inner("![", 62, "&m"), 13, 192),
        case(inner("![", 62, "&mx"), 13, 192),
        case(inner("![", 62, "&true"), 14, 191),
        case(inner("![", 62, "&[m0"), 13, 191),
        case(counts(42) + "\n", 0, 0),
        case(counts(42) + "&[m0,1]\n", 14, 300),
        case(counts(41) + "&![m0,1]\n", 14, 296),
        case(counts(41) + "&![m32,1]\n", 14, 296),
        case(counts(41) + "&!true\n", 0, 0),
        case(counts(42).replace("1]", "1@7]") + "\n", 0, 0),
        case(counts(42).replace("1]", "1 @0]") + "&true\n", 14, 429),
        case(inner("[", 63, ",1@0]\n"), 0, 0),
        case(inner("[", 63, ",1@8]\n"), 13, 195),
        case(inner("[", 63, ",1000@8]\n"), 15, 193),
    ]
}

fn nodes_of_clauses() -> Vec<Case> {
    let case = |sheet: String, number, offset| case("nodes of clauses", sheet, number, offset);
    let full = String::from("!") + &chain(63) + "\n";
    vec![
        case(full.repeat(2), 0, 0),
        case(full.repeat(32), 0, 0),
        case(full.repeat(33), 14, 10_272),
        case(full.clone() + &chain(64) + "\n", 14, 641),
        case(full.repeat(31) + &chain(64) + "\n", 14, 10_271),
        case(chain(64) + "\n" + &full, 14, 320),
    ]
}

/// A sheet of a token repeated, and more.
fn many(count: usize, token: &str, more: &str) -> String {
    token.repeat(count) + more
}

fn one_kind_of_level() -> Vec<Case> {
    let case = |sheet: String, number, offset| case("one kind of level", sheet, number, offset);
    let nested = |n: usize| many(n, "(", "true") + &")".repeat(n) + "\n";
    vec![
        case(many(32, "!", "true\n"), 0, 0),
        case(many(33, "!", "true\n"), 14, 32),
        case(many(33, "!", ""), 14, 32),
        case(many(33, "!", "x"), 14, 32),
        case(many(32, "!", ""), 13, 32),
        case(many(32, "!", "x"), 13, 32),
        case(many(32, "!", "m0"), 13, 32),
        case(many(32, "!", "  !"), 14, 34),
        case(many(8, "XFG!", "true\n"), 0, 0),
        case(many(8, "XFG!", "X"), 14, 32),
        case(many(8, "XFG!", "F"), 14, 32),
        case(many(8, "XFG!", "G"), 14, 32),
        case(nested(32), 0, 0),
        case(nested(33), 14, 32),
        case(many(32, "(", ")"), 13, 32),
        case(many(32, "( ", "("), 14, 64),
        case(many(32, "trueU", "true\n"), 0, 0),
        case(many(33, "trueU", "true\n"), 14, 164),
        case(many(33, "trueU", ""), 14, 164),
        case(many(32, "trueR", "true\n"), 0, 0),
        case(many(32, "trueR", "true R"), 14, 165),
        case(many(16, "trueUtrueR", "trueU"), 14, 164),
        case(many(32, "trueU", "trueU") + "x", 14, 164),
        case(many(32, "trueU", "U"), 13, 160),
    ]
}

fn mixed_levels() -> Vec<Case> {
    let case = |sheet: String, number, offset| case("mixed levels", sheet, number, offset);
    vec![
        case(many(32, "!", "(true)\n"), 14, 32),
        case(many(32, "!", " (true)\n"), 14, 33),
        case(many(32, "!", "  [m0,1]\n"), 14, 34),
        case(many(32, "!", "[m0,1]\n"), 14, 32),
        case(many(32, "(", "!true\n"), 14, 32),
        case(many(32, "(", "[m0,1]\n"), 14, 32),
        case(many(31, "(", "[m0,1]") + &")".repeat(31) + "\n", 0, 0),
        case(many(31, "(", "[m0,1]") + &")".repeat(32) + "\n", 13, 68),
        case(many(31, "!", "[m0,1]\n"), 0, 0),
        case(many(31, "!", "[m0,1@3]\n"), 0, 0),
        case(many(32, "!", "[m0,1@8]\n"), 14, 32),
        case(many(31, "!", "[!m0,1]\n"), 14, 32),
        case(many(31, "!", "[(m0),1]\n"), 14, 32),
        case(many(31, "!", "[[m0,1],1]\n"), 13, 32),
        case(many(31, "!", "[m0 U m1,1]\n"), 14, 35),
        case(many(30, "!", "[m0 U m1,1]\n"), 0, 0),
        case(many(31, "!", "(true U true)\n"), 14, 37),
        case(many(30, "!", "(true U true)\n"), 0, 0),
        case(many(31, "trueU", "!true\n"), 0, 0),
        case(many(32, "trueU", "!true\n"), 14, 160),
        case(many(32, "trueU", "(true)\n"), 14, 160),
        case(many(32, "trueU", "[m0,1]\n"), 14, 160),
        case(many(31, "trueU", "!!true\n"), 14, 156),
        case(many(1, "trueU", "") + &many(32, "(", "true"), 14, 36),
        case(String::from("[") + &many(31, "m0U", "m0,1]\n"), 0, 0),
        case(String::from("[") + &many(32, "m0U", "m0,1]\n"), 14, 96),
        case(String::from("[") + &many(31, "!", "m0,1]\n"), 0, 0),
        case(String::from("[") + &many(32, "!", "m0,1]\n"), 14, 32),
        case(String::from("[") + &many(31, "(", "m32"), 15, 33),
        case(String::from("[") + &many(32, "(", "m32"), 14, 32),
    ]
}

/// Levels end where the operand, the right side or the bracket does.
fn ended_levels() -> Vec<Case> {
    let case = |sheet: String, number, offset| case("ended levels", sheet, number, offset);
    let deep = many(32, "(", "true") + &")".repeat(32);
    let until = many(31, "trueU", "(true)");
    let count = String::from("[") + &many(31, "m0U", "m0,1]");
    vec![
        case(deep.clone() + "Utrue\n", 0, 0),
        case(deep.clone() + "&" + &deep + "\n", 0, 0),
        case(deep.clone() + "U" + &deep + "\n", 14, 100),
        case(deep + "\n" + &many(33, "!", ""), 14, 101),
        case(many(32, "!", "true U true\n"), 0, 0),
        case(many(32, "!", "true U ") + &many(31, "!", "true\n"), 0, 0),
        case(many(32, "!", "true U ") + &many(32, "!", "true\n"), 14, 70),
        case(many(32, "!", "true|") + &many(32, "!", "true\n"), 0, 0),
        case(many(32, "!", "true(") + "true)\n", 13, 36),
        case(many(31, "!", "(true)U true\n"), 0, 0),
        case(until.clone() + "Utrue\n", 0, 0),
        case(until.clone() + "UtrueUtrue\n", 14, 166),
        case(until.clone() + "&" + &many(31, "trueU", "true\n"), 0, 0),
        case(until + "|" + &many(30, "trueR", "!true\n"), 0, 0),
        case(count.clone() + "U[" + &many(30, "m0U", "m0,1]\n"), 0, 0),
        case(count.clone() + "U[" + &many(31, "m0U", "m0,1]\n"), 14, 193),
        case(count + "&!" + &many(31, "(", "!"), 14, 132),
    ]
}

/// `&` and `|` in parentheses end only what was begun there.
fn levels_kept() -> Vec<Case> {
    let case = |sheet: String, number, offset| case("levels kept", sheet, number, offset);
    let outer = many(16, "trueU", "(");
    let fits = outer.clone() + &many(15, "trueU", "true|");
    let after = outer.clone() + "true)";
    vec![
        case(fits.clone() + &many(15, "trueU", "true)\n"), 0, 0),
        case(fits.clone() + &many(16, "trueU", "true)\n"), 14, 240),
        case(fits.clone() + &many(15, "!", "true)\n"), 0, 0),
        case(fits + &many(16, "!", "true)\n"), 14, 176),
        case(outer.clone() + &many(16, "trueU", "true)\n"), 14, 160),
        case(after.clone() + &many(16, "Utrue", "\n"), 0, 0),
        case(after + &many(17, "Utrue", "\n"), 14, 166),
        case(many(31, "!", "(true&!true)\n"), 14, 37),
        case(many(30, "!", "(true&!true)\n"), 0, 0),
        case(many(30, "!", "(true|!!true)\n"), 14, 37),
    ]
}

/// Spaces around a piece of text, up to a length.
fn padded(front: &str, length: usize, end: &str) -> String {
    let spaces = length - front.len() - end.len();
    String::from(front) + &" ".repeat(spaces) + end
}

fn lengths() -> Vec<Case> {
    let case = |sheet: String, number, offset| case("length", sheet, number, offset);
    vec![
        case(padded("true", 16_384, "\n"), 0, 0),
        case(padded("", 16_384, "true\n"), 0, 0),
        case(padded("true", 16_385, "\n"), 12, 0),
        case(padded("true\n", 16_385, ""), 12, 0),
        case(padded("", 16_384, ""), 13, 16_384),
        case(padded("", 16_385, ""), 12, 0),
        case(padded("", 16_384, "true"), 13, 16_384),
        case(padded("", 16_384, "tru"), 13, 16_384),
        case(padded("", 16_384, "[m32"), 15, 16_382),
        case(padded("[m0,", 16_384, "101"), 13, 16_384),
        case(padded("[m0,", 16_384, "101%"), 15, 16_380),
        case(padded("[m0,1", 16_384, "@0]\n"), 0, 0),
        case(padded("[m0,1@0", 16_384, "]\n"), 0, 0),
        case(padded("[m0,1", 16_384, "@"), 13, 16_384),
        case(padded("[m0,1@", 16_384, "0]\n"), 13, 6),
        case(padded("[m0,1", 16_385, "@0]\n"), 12, 0),
        case(many(16_384, "\0", ""), 13, 0),
        case(many(16_385, "\0", ""), 12, 0),
        case(many(16_384, "\n", ""), 13, 0),
        case(many(16_385, "\n", ""), 12, 0),
        case(many(16_384, "!", ""), 14, 32),
        case(many(3_276, "true\n", "true"), 14, 160),
        case(many(3_277, "true\n", ""), 12, 0),
        case(many(65_536, " ", "true\n"), 12, 0),
        case(String::from("[m0,1") + &many(16_379, "0", ""), 15, 4),
        case(String::from("[m0,1") + &many(16_380, "0", ""), 12, 0),
        case(String::from("[m1") + &many(16_381, "0", ""), 15, 2),
        case(String::from("[m0,0") + &many(16_379, "0", ""), 13, 5),
        case(lines(32, "") + &padded("", 16_224, ""), 14, 160),
        case(lines(32, "") + &padded("", 16_225, ""), 12, 0),
    ]
}

pub fn all() -> Vec<Case> {
    let cases = [
        clauses(),
        last_node(),
        surplus_node(),
        nodes_of_counts(),
        nodes_of_clauses(),
        one_kind_of_level(),
        mixed_levels(),
        ended_levels(),
        levels_kept(),
        lengths(),
    ];
    cases.into_iter().flatten().collect()
}
