//! Document 01's cases for the proof file, and the order of its refusals.

use second::checker::{check, Verdict};
use second::field::P;
use second::file::{read, FileRefusal, Header};

const FILE: &str = "sumproof=1\nfield=2147483647\nvars=2\ndegree=2\nclaim=6\n\
                    round=4,0,2147483645\nround=2147483629,30,2147483639\nend=2\n";

/// What is answered, with a lent list of seven 9s; refused, it keeps them.
fn answer(text: &str) -> Result<Header, FileRefusal> {
    let mut messages = [9; 7];
    let result = read(P, text.as_bytes(), &mut messages);
    if result.is_err() {
        assert_eq!(messages, [9; 7]);
    }
    result
}

fn refused(text: &str) -> (u64, u64) {
    match answer(text) {
        Err(FileRefusal::Line(number, line)) => (number, line),
        Err(FileRefusal::Number(number)) => (number, 0),
        Ok(_) => (0, 0),
    }
}

#[test]
fn the_whole_file() {
    let mut messages = [9; 7];
    let header = read(P, FILE.as_bytes(), &mut messages);
    assert_eq!(header, Ok(Header { vars: 2, degree: 2, claim: 6 }));
    assert_eq!(messages, [4, 0, 2147483645, 2147483629, 30, 2147483639, 9]);
}

/// P9: "with challenges 3,1 the file above is accepted".
#[test]
fn the_whole_file_is_accepted() {
    let mut messages = [0; 6];
    let header = read(P, FILE.as_bytes(), &mut messages).unwrap();
    let tables = [0, 1, 2, 0, 3, 4, 1, 2];
    let (vars, degree, claim) = (header.vars, header.degree, header.claim);
    let verdict = check(P, vars, degree, &tables, claim, &[3, 1], &messages);
    assert_eq!(verdict, Ok(Verdict::Accepted));
}

#[test]
fn by_hand_from_document_01() {
    assert_eq!(refused(""), (11, 1));
    assert_eq!(refused(&FILE.replace("round=2147483629,30,2147483639\n", "")), (10, 7));
    let six: String = FILE.split_inclusive('\n').take(6).collect();
    assert_eq!(refused(&six), (11, 7));
    assert_eq!(refused(&FILE[..FILE.len() - 1]), (10, 8));
    assert_eq!(refused(&FILE.replace("claim=6", "claim=06")), (10, 5));
    assert_eq!(refused(&FILE.replace("claim=6", "claim=2147483647")), (12, 5));
}

#[test]
fn each_line_12_after_10() {
    assert_eq!(refused(&FILE.replace("sumproof=1", "sumproof=2")), (12, 1));
    assert_eq!(refused(&FILE.replace("sumproof=1", "sumproof=01")), (10, 1));
    assert_eq!(refused(&FILE.replace("field=2147483647", "field=13")), (12, 2));
    assert_eq!(refused(&FILE.replace("vars=2", "vars=17")), (12, 3));
    assert_eq!(refused(&FILE.replace("vars=2", "vars=9999999999")), (12, 3));
    assert_eq!(refused(&FILE.replace("vars=2", "vars=10000000000")), (10, 3));
    assert_eq!(refused(&FILE.replace("degree=2", "degree=0")), (12, 4));
    assert_eq!(refused(&FILE.replace("degree=2", "degree=4")), (12, 4));
    assert_eq!(refused(&FILE.replace("degree=2", "degree=3")), (10, 6));
    assert_eq!(refused(&FILE.replace("end=2", "end=3")), (12, 8));
    // A number not allowed and a wrong form in the same line: 10.
    assert_eq!(refused(&FILE.replace("4,0,", "2147483647,00,")), (10, 6));
    assert_eq!(refused(&FILE.replace("4,0,", "2147483647,0,")), (12, 6));
    // Edition 2 in line 1 comes before anything in line 2.
    assert_eq!(refused("sumproof=2\nfield=x"), (12, 1));
    assert_eq!(refused("sumproof=1\nfield=2147483647"), (10, 2));
}

#[test]
fn after_the_last_line() {
    for after in ["\n", "x", "end=2\n"] {
        assert_eq!(refused(&format!("{}{}", FILE, after)), (13, 9));
    }
}

#[test]
fn nine_is_first_and_four_is_last() {
    let mut text = FILE.to_string();
    while text.len() < 4096 {
        text.push('x');
    }
    assert_eq!(refused(&text), (13, 9));
    text.push('x');
    assert_eq!(refused(&text), (9, 0));
    let mut short = [9; 5];
    assert_eq!(read(P, FILE.as_bytes(), &mut short), Err(FileRefusal::Number(4)));
    assert_eq!(short, [9; 5]);
    let more = format!("{}x", FILE);
    assert_eq!(read(P, more.as_bytes(), &mut short), Err(FileRefusal::Line(13, 9)));
}

#[test]
fn sixteen_said_nine_given() {
    let text = "sumproof=1\nfield=2147483647\nvars=16\ndegree=1\nclaim=0\n".to_string();
    let nine = text + &"round=0,0\n".repeat(9);
    assert_eq!(refused(&nine), (11, 15));
    assert_eq!(refused(&(nine.clone() + "end=16\n")), (10, 15));
    assert_eq!(refused(&(nine + "end=9\n")), (10, 15));
}

#[test]
fn no_rounds() {
    let text = "sumproof=1\nfield=2147483647\nvars=0\ndegree=3\nclaim=35\nend=0\n";
    assert_eq!(answer(text), Ok(Header { vars: 0, degree: 3, claim: 35 }));
    assert_eq!(read(P, text.as_bytes(), &mut []), Ok(Header { vars: 0, degree: 3, claim: 35 }));
    assert_eq!(refused(&format!("{}\n", text)), (13, 7));
}
