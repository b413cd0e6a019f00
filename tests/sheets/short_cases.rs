//! Short sheets with their verdicts, written by hand: those of document 01, every place where a
//! sheet can go wrong, and numbers and groups on both sides of their limits.

use crate::reference::{Verdict, RULES};

/// A sheet with the verdict that the paper gives it.
pub struct Case {
    pub name: &'static str,
    pub sheet: Vec<u8>,
    pub verdict: Verdict,
}

/// Number 0 is accepted.
pub fn case(name: &'static str, sheet: impl AsRef<[u8]>, number: u32, offset: u32) -> Case {
    let about = if number == 0 { 0 } else { RULES };
    Case {
        name,
        sheet: sheet.as_ref().to_vec(),
        verdict: [about, number, offset, 0],
    }
}

fn group<T: AsRef<[u8]>>(name: &'static str, cases: &[(T, u32, u32)]) -> Vec<Case> {
    let case = |(sheet, number, offset): &(T, u32, u32)| case(name, sheet, *number, *offset);
    cases.iter().map(case).collect()
}

fn accepted(name: &'static str, sheets: &[&str]) -> Vec<Case> {
    let sheets = sheets.iter();
    sheets.map(|sheet| case(name, sheet, 0, 0)).collect()
}

/// The clauses of document 01's case table.
pub const PAPER: &str = "F [m1,2]\nF [m1,2]\nF [m1,1]\nF [m1,1]\nG ![m1,2]\nG [m0,1]\nG [m0,1]\n\
    [G F m1,2]\nX [m1,1]\nX [m1,1]\n[m0,0]\n[m0,3]\n";

fn paper() -> Vec<Case> {
    let clauses = PAPER.split_inclusive('\n').collect::<Vec<&str>>();
    let mut cases = accepted("case table", &clauses);
    cases.extend(accepted("case table in one sheet", &[PAPER]));
    let also = [
        ("[m31,1]\n", 0, 0),
        ("[m32,1]\n", 15, 2),
        ("[m01,1]\n", 13, 3),
    ];
    cases.extend(group("beside the table", &also));
    cases
}

fn well_formed() -> Vec<Case> {
    let sheets = [
        "true\n",
        "  true  \n",
        "true\ntrue\n",
        " true \n true \n",
        "trueUtrueRtrue&true|true\n",
        "true U true R true & true | true\n",
        "!true\n",
        "! X F G ! true\n",
        "!X!F!Gtrue\n",
        "(true)\n",
        "( ( true ) )\n",
        "!(X(true|true)U true)&true\n",
        "[true,0]\n",
        "[ m0 , 1 ] \n",
        "  [  m10  ,  100%  ]  \n",
        "[!(m0U m1)&X true|F G m31,7%]\n",
        "([m0,1])U![(m1),2]\n",
        "FG[FGm1,1]RX[m2,2]\n",
        "true|true|true&true&trueUtrueUtrue\n",
    ];
    accepted("well formed", &sheets)
}

fn ends() -> Vec<Case> {
    let cases = [
        ("", 7, 0),
        ("\n", 13, 0),
        ("\n\n", 13, 0),
        (" ", 13, 1),
        ("   ", 13, 3),
        (" \n", 13, 1),
        ("\ntrue\n", 13, 0),
        ("true", 13, 4),
        ("true  ", 13, 6),
        ("true\n\n", 13, 5),
        ("true\n ", 13, 6),
        ("true\n   ", 13, 8),
        ("true\n  \n", 13, 7),
        ("true\n\ntrue\n", 13, 5),
        ("true\ntrue", 13, 9),
        ("true\ntrue\nt", 13, 11),
        ("true\n)", 13, 5),
    ];
    group("ends of lines and sheet", &cases)
}

fn cut_and_joined() -> Vec<Case> {
    let cases = [
        ("t", 13, 1),
        ("tr", 13, 2),
        ("tru", 13, 3),
        ("tru\n", 13, 3),
        ("trux\n", 13, 3),
        ("tr ue\n", 13, 2),
        ("t\nrue\n", 13, 1),
        ("truetrue\n", 13, 4),
        ("truex\n", 13, 4),
        ("true true\n", 13, 5),
        ("trueX\n", 13, 4),
        ("True\n", 13, 0),
        ("TRUE\n", 13, 0),
        ("false\n", 13, 0),
        ("f true\n", 13, 0),
        ("W true\n", 13, 0),
        ("true u true\n", 13, 5),
        ("1\n", 13, 0),
        ("m\n", 13, 0),
        ("m0\n", 13, 0),
        ("m32\n", 13, 0),
        ("true&m32\n", 13, 5),
    ];
    group("cut and joined tokens", &cases)
}

fn operators() -> Vec<Case> {
    let cases = [
        ("|true\n", 13, 0),
        ("&true\n", 13, 0),
        ("U true\n", 13, 0),
        (" R true\n", 13, 1),
        ("true|\n", 13, 5),
        ("true&", 13, 5),
        ("true U\n", 13, 6),
        ("true R ", 13, 7),
        ("true ||true\n", 13, 6),
        ("true&&true\n", 13, 5),
        ("true|&true\n", 13, 5),
        ("true U U true\n", 13, 7),
        ("true U R true\n", 13, 7),
        ("!\n", 13, 1),
        ("!", 13, 1),
        ("X ", 13, 2),
        ("F G\n", 13, 3),
        ("!|true\n", 13, 1),
        ("!U true\n", 13, 1),
        ("true!\n", 13, 4),
        ("true X true\n", 13, 5),
        ("true->true\n", 13, 4),
    ];
    group("operators", &cases)
}

fn parentheses() -> Vec<Case> {
    let cases = [
        ("()\n", 13, 1),
        ("(\n", 13, 1),
        ("(", 13, 1),
        (")\n", 13, 0),
        ("(true\n", 13, 5),
        ("(true", 13, 5),
        ("true)\n", 13, 4),
        ("((true)\n", 13, 7),
        ("(true))\n", 13, 6),
        ("(true]\n", 13, 5),
        ("(true,1]\n", 13, 5),
        ("(true)true\n", 13, 6),
        ("(true)(true)\n", 13, 6),
        ("(true)!true\n", 13, 6),
        ("(true|)\n", 13, 6),
        ("(true\n)\n", 13, 5),
        ("!()\n", 13, 2),
        ("true()\n", 13, 4),
    ];
    group("parentheses", &cases)
}

fn counts() -> Vec<Case> {
    let cases = [
        ("[]\n", 13, 1),
        ("[", 13, 1),
        ("]\n", 13, 0),
        ("[,1]\n", 13, 1),
        ("[1,1]\n", 13, 1),
        ("[m0]\n", 13, 3),
        ("[m0", 13, 3),
        ("[m0 1]\n", 13, 4),
        ("[m0,", 13, 4),
        ("[m0,]\n", 13, 4),
        ("[m0,m1]\n", 13, 4),
        ("[m0,true]\n", 13, 4),
        ("[m0,1", 13, 5),
        ("[m0,1\n", 13, 5),
        ("[m0,1)\n", 13, 5),
        ("[m0,1,2]\n", 13, 5),
        ("[m0,1]", 13, 6),
        ("[m0,1]1\n", 13, 6),
        ("[m0,1]]\n", 13, 6),
        ("[m0,1][m0,1]\n", 13, 6),
        ("[m0\n,1]\n", 13, 3),
        ("[m0,\n1]\n", 13, 4),
        ("[[m0,1],1]\n", 13, 1),
        ("[m0&[m1,1],1]\n", 13, 4),
        ("[(m0,1]\n", 13, 4),
        ("[m0),1]\n", 13, 3),
        ("[(m0,1),1]\n", 13, 4),
        ("([m0,1)]\n", 13, 6),
        ("([m0),1]\n", 13, 4),
        ("true,1\n", 13, 4),
        ("true]\n", 13, 4),
        ("[m0,1]&m0\n", 13, 7),
    ];
    group("counts", &cases)
}

fn marks() -> Vec<Case> {
    let cases = [
        ("[m0,1]\n", 0, 0),
        ("[m9&m10&m29&m30,1]\n", 0, 0),
        ("[m", 13, 2),
        ("[m,1]\n", 13, 2),
        ("[m 0,1]\n", 13, 2),
        ("[m 32,1]\n", 13, 2),
        ("[mm0,1]\n", 13, 2),
        ("[M0,1]\n", 13, 1),
        ("[m-1,1]\n", 13, 2),
        ("[m00,1]\n", 13, 3),
        ("[m031,1]\n", 13, 3),
        ("[m0m1,1]\n", 13, 3),
        ("[m1%,1]\n", 13, 3),
        ("[m3", 13, 3),
        ("[m3 2,1]\n", 13, 4),
        ("[m32", 15, 2),
        ("[m32x", 15, 2),
        ("[m32%", 15, 2),
        ("[m32 ", 15, 2),
        ("[! m32,1]\n", 15, 4),
        ("[m39,1]\n", 15, 2),
        ("[m40,1]\n", 15, 2),
        ("[m99,1]\n", 15, 2),
        ("[m100,1]\n", 15, 2),
        ("[m310,1]\n", 15, 2),
        ("[m256,1]\n", 15, 2),
        ("[m287,1]\n", 15, 2),
        ("[m65536,1]\n", 15, 2),
        ("[m4294967296,1]\n", 15, 2),
        ("[m4294967327,1]\n", 15, 2),
        ("[m18446744073709551616,1]\n", 15, 2),
        ("[m18446744073709551647,1]\n", 15, 2),
        ("[m31 U m32,1]\n", 15, 8),
    ];
    group("marks", &cases)
}

fn numbers() -> Vec<Case> {
    let cases = [
        ("[m0,9]\n", 0, 0),
        ("[m0,10]\n", 0, 0),
        ("[m0,999]\n", 0, 0),
        ("[m0,00]\n", 13, 5),
        ("[m0,01]\n", 13, 5),
        ("[m0,0999]\n", 13, 5),
        ("[m0,1 2]\n", 13, 6),
        ("[m0,-1]\n", 13, 4),
        ("[m0,+1]\n", 13, 4),
        ("[m0,1.5]\n", 13, 5),
        ("[m0,1e1]\n", 13, 5),
        ("[m0,0x1]\n", 13, 5),
        ("[m0,999", 13, 7),
        ("[m0,999x", 13, 7),
        ("[m0,1000]\n", 15, 4),
        ("[m0, 1000]\n", 15, 5),
        ("[m0,1000", 15, 4),
        ("[m0,1000x", 15, 4),
        ("[m0,1000\n", 15, 4),
        ("[m0,1000 ", 15, 4),
        ("[m0,1000 1", 15, 4),
        ("[m0,9990]\n", 15, 4),
        ("[m0,65536]\n", 15, 4),
        ("[m0,66535]\n", 15, 4),
        ("[m0,4294967296]\n", 15, 4),
        ("[m0,4294968295]\n", 15, 4),
        ("[m0,18446744073709551616]\n", 15, 4),
        ("[m0,18446744073709552615]\n", 15, 4),
        ("[m0,340282366920938463463374607431768211456]\n", 15, 4),
    ];
    group("numbers", &cases)
}

fn percentages() -> Vec<Case> {
    let cases = [
        ("[m0,0%]\n", 0, 0),
        ("[m0,99%]\n", 0, 0),
        ("[m0,100%]\n", 0, 0),
        ("[m0,100% ]\n", 0, 0),
        ("[m0,101]\n", 0, 0),
        ("[m0,101%]\n", 15, 4),
        ("[m0, 101% ]\n", 15, 5),
        ("[m0,101", 13, 7),
        ("[m0,101%", 15, 4),
        ("[m0,101%%", 15, 4),
        ("[m0,101x", 13, 7),
        ("[m0,101 %]\n", 13, 8),
        ("[m0,100%", 13, 8),
        ("[m0,100%%]\n", 13, 8),
        ("[m0,1 %]\n", 13, 6),
        ("[m0,%]\n", 13, 4),
        ("[m0,00%]\n", 13, 5),
        ("[m0,010%]\n", 13, 5),
        ("[m0,110%]\n", 15, 4),
        ("[m0,200%]\n", 15, 4),
        ("[m0,256%]\n", 15, 4),
        ("[m0,356%]\n", 15, 4),
        ("[m0,999%]\n", 15, 4),
        ("[m0,1000%]\n", 15, 4),
        ("[m0,1000 %]\n", 15, 4),
        ("[m0,4294967297%]\n", 15, 4),
        ("[m0,18446744073709551617%]\n", 15, 4),
        ("[m0,50%5]\n", 13, 7),
    ];
    group("percentages", &cases)
}

fn groups() -> Vec<Case> {
    let cases = [
        ("[m0,1@0]\n", 0, 0),
        ("[m0,1@7]\n", 0, 0),
        ("[m0,999@3]\n", 0, 0),
        ("[m0,0@0]\n", 0, 0),
        ("[m0,100%@0]\n", 0, 0),
        ("[m0,0%@5]\n", 0, 0),
        ("[m0,101@1]\n", 0, 0),
        ("[m0,1 @0]\n", 0, 0),
        ("[ m0 , 1   @0  ] \n", 0, 0),
        ("[m0,50% @6 ]\n", 0, 0),
        ("[m0,1@0]&[m0,1@1]|![m1,2]\n", 0, 0),
        ("[m0,1@8]\n", 13, 6),
        ("[m0,1@9]\n", 13, 6),
        ("[m0,50%@8]\n", 13, 8),
        ("[m0,1 @8]\n", 13, 7),
        ("[m0,1@01]\n", 13, 7),
        ("[m0,1@00]\n", 13, 7),
        ("[m0,1@10]\n", 13, 7),
        ("[m0,1@0 1]\n", 13, 8),
        ("[m0,1@ 0]\n", 13, 6),
        ("[m0,1@]\n", 13, 6),
        ("[m0,1@\n", 13, 6),
        ("[m0,1@", 13, 6),
        ("[m0,1 @", 13, 7),
        ("[m0,1@0", 13, 7),
        ("[m0,1@0 ", 13, 8),
        ("[m0,1@0\n", 13, 7),
        ("[m0,1@x]\n", 13, 6),
        ("[m0,1@-1]\n", 13, 6),
        ("[m0,1@@0]\n", 13, 6),
        ("[m0,1@0@1]\n", 13, 7),
        ("[m0,1@0 @1]\n", 13, 8),
        ("[m0,1@0%]\n", 13, 7),
        ("[m0,1@0 %]\n", 13, 8),
        ("[m0,1 %@0]\n", 13, 6),
        ("[m0,1@0,1]\n", 13, 7),
        ("[m0,@0]\n", 13, 4),
        ("[m0,@0 1]\n", 13, 4),
        ("[m0 @0,1]\n", 13, 4),
        ("[m0@0,1]\n", 13, 3),
        ("[@0,1]\n", 13, 1),
        ("[m0,1]@0\n", 13, 6),
        ("[m0,1] @0\n", 13, 7),
        ("true@0\n", 13, 4),
        ("@0\n", 13, 0),
        ("(@0)\n", 13, 1),
        ("true\n@0", 13, 5),
    ];
    group("groups", &cases)
}

/// The number's range is judged whatever follows it.
fn groups_of_wrong_numbers() -> Vec<Case> {
    let cases = [
        ("[m0,1000@0]\n", 15, 4),
        ("[m0,1000@9]\n", 15, 4),
        ("[m0,1000 @9]\n", 15, 4),
        ("[m0,1000@", 15, 4),
        ("[m0,1000@01]\n", 15, 4),
        ("[m0,101%@0]\n", 15, 4),
        ("[m0,101%@8]\n", 15, 4),
        ("[m0,101%@", 15, 4),
        ("[m0,101@8]\n", 13, 8),
        ("[m0,01@0]\n", 13, 5),
        ("[m32,1@8]\n", 15, 2),
        ("[m0,1@8]&[m32,1]\n", 13, 6),
        ("[m0,1@7]&[m32,1@0]\n", 15, 11),
        ("[m0,1@7]&[m0,1000@0]\n", 15, 13),
    ];
    group("groups of wrong numbers", &cases)
}

/// The lowest offset wins.
fn first_of_two() -> Vec<Case> {
    let cases = [
        ("[m32,1000]\n", 15, 2),
        ("[m32,x]\n", 15, 2),
        ("[m31,1000]\n", 15, 5),
        ("[m0,1000]&[m32,1]\n", 15, 4),
        ("[m0,1000]\n\n", 15, 4),
        ("[m0,1] [m32,1]\n", 13, 7),
        ("x[m32,1]\n", 13, 0),
        ("\n[m32,1]\n", 13, 0),
        ("true\n[m32,1]\n\n", 15, 7),
        ("true\n\n[m32,1]\n", 13, 5),
        ("[m0,1000]x", 15, 4),
        ("[m0x,1000]", 13, 3),
    ];
    group("two faults", &cases)
}

/// Bytes that are no ASCII, or no text, or ASCII with the highest bit set.
fn odd_bytes() -> Vec<Case> {
    let cases: [(&[u8], u32, u32); 21] = [
        (b"\0", 13, 0),
        (b"true\0\n", 13, 4),
        (b"tr\0ue\n", 13, 2),
        (b"true\n\0", 13, 5),
        (b"\ttrue\n", 13, 0),
        (b"true\t\n", 13, 4),
        (b"true\r\n", 13, 4),
        (b"true\r", 13, 4),
        (b"true\x0b\n", 13, 4),
        (b"true\x0c\n", 13, 4),
        (b"true\x7f\n", 13, 4),
        (b"\x80", 13, 0),
        (b"\xf4rue\n", 13, 0),
        (b"true\x8a", 13, 4),
        (b"\xa0true\n", 13, 0),
        (b"\xff", 13, 0),
        (b"\xef\xbb\xbftrue\n", 13, 0),
        (b"[m\xb1,1]\n", 13, 2),
        (b"[m1,1\xb1]\n", 13, 5),
        (b"[m1,1@\xb0]\n", 13, 6),
        (b"[m1,1\xc00]\n", 13, 5),
    ];
    group("odd bytes", &cases)
}

pub fn all() -> Vec<Case> {
    let cases = [
        paper(),
        well_formed(),
        ends(),
        cut_and_joined(),
        operators(),
        parentheses(),
        counts(),
        marks(),
        numbers(),
        percentages(),
        groups(),
        groups_of_wrong_numbers(),
        first_of_two(),
        odd_bytes(),
    ];
    cases.into_iter().flatten().collect()
}
