//! The cases that the specification works out by hand, through the crate.

use sendurafi::{
    check, check_rounds, field, prove, read, round_part, true_sum, value_at, Refusal, Rounds,
    State, Step, Verdict, P,
};

const TABLES: [u32; 8] = [0, 1, 2, 0, 3, 4, 1, 2];
const MESSAGES: [u32; 6] = [4, 0, 2147483645, 2147483629, 30, 2147483639];
const FILE: &str = "sumproof=1\nfield=2147483647\nvars=2\ndegree=2\nclaim=6\n\
    round=4,0,2147483645\nround=2147483629,30,2147483639\nend=2\n";

fn number<T: std::fmt::Debug>(answer: Result<T, Refusal>) -> u32 {
    answer.unwrap_err().number()
}

fn refused(file: &[u8]) -> (u32, Option<u32>) {
    let mut messages = [5; 64];
    let refusal = read(file, &mut messages).unwrap_err();
    assert_eq!(messages, [5; 64]);
    (refusal.number(), refusal.line())
}

#[test]
fn field_at_its_edges() {
    assert_eq!(field::product(P - 1, P - 1), Ok(1));
    assert_eq!(field::sum(P - 1, 1), Ok(0));
    assert_eq!(field::difference(0, 1), Ok(P - 1));
    assert_eq!(field::power(0, 0), Ok(1));
    assert_eq!(field::power(3, u64::MAX), field::power(3, u64::MAX % (u64::from(P) - 1)));
    assert_eq!(number(field::inverse(0)), 6);
    for answer in [
        field::sum(P, 0),
        field::sum(0, P),
        field::difference(P, 0),
        field::difference(0, P),
        field::negative(P),
        field::product(P, 0),
        field::product(0, P),
        field::power(P, 0),
        field::inverse(P),
    ] {
        assert_eq!(number(answer), 5);
    }
}

#[test]
fn p7_p8_p9() {
    assert_eq!(true_sum(2, 2, &TABLES), Ok(6));
    assert_eq!(value_at(2, 2, &TABLES, &[3, 1]), Ok(4));
    let (mut messages, mut scratch) = ([7; 8], [7; 9]);
    assert_eq!(prove(2, 2, &TABLES, &[3, 1], &mut messages, &mut scratch), Ok(()));
    assert_eq!(messages[..6], MESSAGES);
    assert_eq!(messages[6..], [7, 7]);
    assert_eq!(scratch, [0, 0, 0, 0, 0, 0, 0, 0, 7]);
    assert_eq!(check(2, 2, &TABLES, 6, &[3, 1], &MESSAGES), Ok(Verdict::Accepted));
    assert_eq!(check_rounds(2, 2, 6, &[3, 1], &MESSAGES), Ok(Rounds::Reached { value: 4 }));
}

#[test]
fn p10_p11_the_lucky_challenge() {
    let (table, messages) = ([3, 4, 1, 2], [7, 2147483644, 3, 1]);
    assert_eq!(check(2, 1, &table, 11, &[0, 9], &messages), Ok(Verdict::Accepted));
    let rejected = Ok(Verdict::Rejected { round: 2 });
    assert_eq!(check(2, 1, &table, 11, &[5, 9], &messages), rejected);
}

#[test]
fn p12_no_variables() {
    assert_eq!(check(0, 2, &[5, 7], 35, &[], &[]), Ok(Verdict::Accepted));
    assert_eq!(check(0, 2, &[5, 7], 36, &[], &[]), Ok(Verdict::Rejected { round: 0 }));
    assert_eq!(prove(0, 2, &[5, 7], &[], &mut [], &mut [1, 2]), Ok(()));
}

#[test]
fn limits() {
    assert!(State::open(16, 3, 0).is_ok());
    assert_eq!(number(State::open(17, 3, 0)), 1);
    assert_eq!(number(State::open(16, 0, 0)), 2);
    assert_eq!(number(State::open(16, 4, 0)), 2);
    assert_eq!(number(State::open(17, 4, P)), 1);
    assert_eq!(number(true_sum(17, 0, &[])), 1);
    assert_eq!(number(true_sum(2, 4, &[])), 2);
    assert_eq!(number(true_sum(2, 1, &[P; 3])), 3);
    assert_eq!(number(true_sum(2, 1, &[P; 4])), 5);
    assert_eq!(number(prove(1, 1, &[P; 2], &[P], &mut [0; 1], &mut [0; 2])), 4);
    assert_eq!(number(prove(1, 1, &[P; 2], &[P], &mut [0; 2], &mut [0; 1])), 4);
    assert_eq!(number(prove(1, 1, &[P; 2], &[P], &mut [0; 2], &mut [0; 2])), 5);
}

#[test]
fn steps() {
    let mut state = State::open(2, 2, 6).unwrap();
    assert_eq!(number(state.close(4)), 7);
    assert_eq!(state.step(&MESSAGES[..3], 3), Ok(Step::Taken));
    let before = state;
    assert_eq!(number(state.step(&MESSAGES[3..5], 1)), 3);
    assert_eq!(number(state.step(&[P, 0, 0], 1)), 5);
    assert_eq!(number(state.step(&MESSAGES[3..], P)), 5);
    assert_eq!(state, before);
    assert_eq!(state.step(&MESSAGES[3..], 1), Ok(Step::Taken));
    assert_eq!((state.taken, state.claim, state.rejected), (2, 4, false));
    assert_eq!(number(state.step(&MESSAGES[3..], 1)), 7);
    assert_eq!(state.close(4), Ok(Verdict::Accepted));
    assert_eq!(state.close(5), Ok(Verdict::Rejected { round: 2 }));
    assert_eq!(number(state.close(P)), 5);
}

#[test]
fn rejecting_step_only_marks() {
    let mut state = State::open(2, 1, 11).unwrap();
    assert_eq!(state.step(&[7, 7], 5), Ok(Step::Rejected { round: 1 }));
    assert_eq!(state, State { rejected: true, ..State::open(2, 1, 11).unwrap() });
    assert_eq!(number(state.step(&[7, 2147483644], 5)), 7);
    assert_eq!(state.close(0), Ok(Verdict::Rejected { round: 1 }));
}

#[test]
fn forged_states() {
    let good = State { vars: 2, degree: 1, taken: 2, claim: 4, rejected: false };
    assert_eq!(number(State { vars: 17, degree: 0, claim: P, ..good }.close(P)), 1);
    assert_eq!(number(State { degree: 4, claim: P, ..good }.close(P)), 2);
    assert_eq!(number(State { claim: P, taken: 3, ..good }.close(P)), 5);
    assert_eq!(number(State { taken: 3, ..good }.close(P)), 7);
    assert_eq!(number(State { taken: u32::MAX, ..good }.close(P)), 7);
    assert_eq!(number(State { rejected: true, ..good }.close(P)), 7);
}

#[test]
fn round_parts_are_the_callers_own() {
    for (round, start) in [(1, 0), (2, 3)] {
        let part = round_part(2, 2, &MESSAGES, round).unwrap();
        assert_eq!(part.as_ptr(), MESSAGES[start..].as_ptr());
        assert_eq!(part.len(), 3);
    }
    assert_eq!(number(round_part(17, 0, &MESSAGES, 0)), 1);
    assert_eq!(number(round_part(2, 0, &MESSAGES, 0)), 2);
    assert_eq!(number(round_part(2, 2, &MESSAGES[1..], 0)), 3);
    assert_eq!(number(round_part(2, 2, &MESSAGES, 0)), 8);
    assert_eq!(number(round_part(2, 2, &MESSAGES, 3)), 8);
    assert_eq!(number(round_part(0, 2, &[], 1)), 8);
}

#[test]
fn the_file() {
    let mut messages = [5; 7];
    let header = read(FILE.as_bytes(), &mut messages).unwrap();
    assert_eq!((header.vars, header.degree, header.claim), (2, 2, 6));
    assert_eq!(messages[..6], MESSAGES);
    assert_eq!(messages[6], 5);
    assert_eq!(number(read(FILE.as_bytes(), &mut [0; 5])), 4);
}

#[test]
fn files_turned_down() {
    assert_eq!(refused(b""), (11, Some(1)));
    assert_eq!(refused(&[b'x'; 4097]), (9, None));
    assert_eq!(refused(&[b'x'; 4096]), (10, Some(1)));
    assert_eq!(
        refused(FILE.replace("round=2147483629,30,2147483639\n", "").as_bytes()),
        (10, Some(7))
    );
    let six_lines = FILE.find("round=2147483629").unwrap();
    assert_eq!(refused(&FILE.as_bytes()[..six_lines]), (11, Some(7)));
    assert_eq!(refused(&FILE.as_bytes()[..FILE.len() - 1]), (10, Some(8)));
    assert_eq!(refused(FILE.replace("claim=6", "claim=06").as_bytes()), (10, Some(5)));
    assert_eq!(refused(FILE.replace("claim=6", "claim=2147483647").as_bytes()), (12, Some(5)));
    assert_eq!(refused(FILE.replace("vars=2", "vars=17").as_bytes()), (12, Some(3)));
    assert_eq!(refused(FILE.replace("degree=2", "degree=4").as_bytes()), (12, Some(4)));
    assert_eq!(refused(FILE.replace("end=2", "end=3").as_bytes()), (12, Some(8)));
    assert_eq!(refused(format!("{}\n", FILE).as_bytes()), (13, Some(9)));
    assert_eq!(refused(format!("{} ", FILE).as_bytes()), (13, Some(9)));
}
