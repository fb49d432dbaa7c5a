//! The crate beside the independent second program, on inputs good and bad:
//! the same answer, and the same numbers in every lent place.

mod random;

use random::Random;
use second::checker::{self, Last, Verdict as SecondVerdict};
use second::field::P as N;
use second::file::{self, FileRefusal};
use second::{field as second_field, part, rounds, steps, tables};
use sendurafi::{
    check, check_rounds, field, prove, read, round_part, true_sum, value_at, Refusal, Rounds,
    State, Step, Verdict,
};

fn wide(list: &[u32]) -> Vec<u64> {
    list.iter().map(|x| u64::from(*x)).collect()
}

/// A refusal that is about no line.
fn plain<T>(answer: Result<T, Refusal>) -> Result<T, u64> {
    answer.map_err(|refusal| {
        assert_eq!(refusal.line(), None);
        u64::from(refusal.number())
    })
}

fn verdict(answer: Verdict) -> SecondVerdict {
    match answer {
        Verdict::Accepted => SecondVerdict::Accepted,
        Verdict::Rejected { round } => SecondVerdict::Rejected(u64::from(round)),
    }
}

/// Inputs of a call: mostly right, each part now and then wrong.
struct Inputs {
    vars: u32,
    degree: u32,
    tables: Vec<u32>,
    claim: u32,
    challenges: Vec<u32>,
    messages: Vec<u32>,
}

fn inputs(random: &mut Random) -> Inputs {
    let (vars, degree) = match random.below(30) {
        0 => (17 + random.below(20), random.below(6)),
        1 => (random.next() as u32, random.next() as u32),
        2 => (random.below(7), 4 * random.below(2)),
        _ => (random.below(7), 1 + random.below(3)),
    };
    let (m, k) = (vars.min(6) as usize, degree.min(3) as usize);
    let lengths = [k << m, m, m * (k + 1)].map(|length| random.about(length));
    let mut tables = random.elements(lengths[0]);
    let mut challenges = random.elements(lengths[1]);
    let mut messages = random.elements(lengths[2]);
    let mut claim = random.number();
    if random.below(3) > 0 {
        make_true(vars, degree, &tables, &mut claim, &challenges, &mut messages);
    }
    damage(random, [&mut tables, &mut challenges, &mut messages], &mut claim);
    Inputs { vars, degree, tables, claim, challenges, messages }
}

/// A true proof in place of the numbers, where the shape allows one.
fn make_true(
    vars: u32,
    degree: u32,
    tables: &[u32],
    claim: &mut u32,
    challenges: &[u32],
    messages: &mut [u32],
) {
    let mut scratch = vec![0; tables.len()];
    if prove(vars, degree, tables, challenges, messages, &mut scratch).is_ok() {
        *claim = true_sum(vars, degree, tables).unwrap();
    }
}

fn damage(random: &mut Random, lists: [&mut Vec<u32>; 3], claim: &mut u32) {
    for list in lists {
        if random.one_in(8) && !list.is_empty() {
            let place = random.below(list.len() as u32) as usize;
            list[place] = random.number();
        }
    }
    if random.one_in(8) {
        *claim = random.number();
    }
}

#[test]
fn field_operations() {
    let mut random = Random::new(1);
    for _ in 0..200_000 {
        let (a, b, e) = (random.number(), random.number(), random.next() >> random.below(64));
        let (x, y) = (u64::from(a), u64::from(b));
        let given = |answer: Result<u32, Refusal>| plain(answer).map(u64::from);
        assert_eq!(given(field::sum(a, b)), second_field::sum(N, x, y));
        assert_eq!(given(field::difference(a, b)), second_field::difference(N, x, y));
        assert_eq!(given(field::negative(a)), second_field::negative(N, x));
        assert_eq!(given(field::product(a, b)), second_field::product(N, x, y));
        assert_eq!(given(field::power(a, e)), second_field::power(N, x, e));
        assert_eq!(given(field::inverse(a)), second_field::inverse(N, x));
    }
}

#[test]
fn sums_and_values() {
    let mut random = Random::new(2);
    for _ in 0..20_000 {
        let i = inputs(&mut random);
        let (m, k, t) = (u64::from(i.vars), u64::from(i.degree), wide(&i.tables));
        let sum = plain(true_sum(i.vars, i.degree, &i.tables)).map(u64::from);
        assert_eq!(sum, tables::true_sum(N, m, k, &t));
        let value = plain(value_at(i.vars, i.degree, &i.tables, &i.challenges)).map(u64::from);
        assert_eq!(value, tables::value_at(N, m, k, &t, &wide(&i.challenges)));
    }
}

#[test]
fn provers() {
    let mut random = Random::new(3);
    for _ in 0..20_000 {
        let i = inputs(&mut random);
        let more = [random.below(3), random.below(3)].map(|x| x as usize);
        let mut messages = random.anything(i.messages.len() + more[0]);
        let mut scratch = random.anything(i.tables.len() + more[1]);
        let (mut m2, mut s2) = (wide(&messages), wide(&scratch));
        let (t, c) = (wide(&i.tables), wide(&i.challenges));
        let answer =
            plain(prove(i.vars, i.degree, &i.tables, &i.challenges, &mut messages, &mut scratch));
        let (m, k) = (u64::from(i.vars), u64::from(i.degree));
        assert_eq!(answer, rounds::prove(N, m, k, &t, &c, &mut m2, &mut s2));
        assert_eq!((wide(&messages), wide(&scratch)), (m2, s2));
    }
}

#[test]
fn checkers() {
    let mut random = Random::new(4);
    let mut counts = [0; 3];
    for _ in 0..20_000 {
        let i = inputs(&mut random);
        let (m, k, claim) = (u64::from(i.vars), u64::from(i.degree), u64::from(i.claim));
        let (t, c, s) = (wide(&i.tables), wide(&i.challenges), wide(&i.messages));
        let whole = check(i.vars, i.degree, &i.tables, i.claim, &i.challenges, &i.messages);
        match whole {
            Ok(Verdict::Accepted) => counts[0] += 1,
            Ok(Verdict::Rejected { .. }) => counts[1] += 1,
            Err(_) => counts[2] += 1,
        }
        assert_eq!(plain(whole).map(verdict), checker::check(N, m, k, &t, claim, &c, &s));
        let without = check_rounds(i.vars, i.degree, i.claim, &i.challenges, &i.messages);
        let without = plain(without).map(|answer| match answer {
            Rounds::Reached { value } => Last::Value(u64::from(value)),
            Rounds::Rejected { round } => Last::Rejected(u64::from(round)),
        });
        assert_eq!(without, checker::check_rounds(N, m, k, claim, &c, &s));
    }
    // Each kind of answer must have come often, or the inputs are poor.
    assert!(counts.iter().all(|n| *n > 2_000), "{:?}", counts);
}

fn second_state(state: &State) -> steps::State {
    steps::State {
        vars: u64::from(state.vars),
        degree: u64::from(state.degree),
        taken: u64::from(state.taken),
        claim: u64::from(state.claim),
        rejected: u64::from(state.rejected),
    }
}

fn compare_step(state: &mut State, message: &[u32], challenge: u32) {
    let before = second_state(state);
    let answer = plain(state.step(message, challenge)).map(|step| match step {
        Step::Taken => SecondVerdict::Accepted,
        Step::Rejected { round } => SecondVerdict::Rejected(u64::from(round)),
    });
    let (expected, after) = steps::step(N, &before, &wide(message), u64::from(challenge));
    assert_eq!((answer, second_state(state)), (expected, after));
}

fn compare_close(state: &State, value: u32) {
    let answer = plain(state.close(value)).map(verdict);
    assert_eq!(answer, steps::close(N, &second_state(state), u64::from(value)));
}

#[test]
fn steps_in_sequence() {
    let mut random = Random::new(5);
    for _ in 0..10_000 {
        let i = inputs(&mut random);
        let (m, k, claim) = (u64::from(i.vars), u64::from(i.degree), u64::from(i.claim));
        let opened = plain(State::open(i.vars, i.degree, i.claim));
        assert_eq!(opened.map(|s| second_state(&s)), steps::open(N, m, k, claim));
        let mut state = match opened {
            Ok(state) => state,
            Err(_) => continue,
        };
        let width = i.degree as usize + 1;
        for (message, challenge) in i.messages.chunks(width).zip(&i.challenges) {
            compare_close(&state, i.claim);
            while random.one_in(6) {
                let length = random.about(width);
                let other: Vec<u32> = (0..length).map(|_| random.number()).collect();
                compare_step(&mut state, &other, random.number());
            }
            compare_step(&mut state, message, *challenge);
        }
        let value = value_at(i.vars, i.degree, &i.tables, &i.challenges).unwrap_or(0);
        compare_close(&state, value);
        compare_close(&state, random.number());
    }
}

#[test]
fn forged_states() {
    let mut random = Random::new(6);
    for _ in 0..100_000 {
        let near = |random: &mut Random, most| match random.below(10) {
            0 => random.next() as u32,
            _ => random.below(most),
        };
        let mut state = State {
            vars: near(&mut random, 18),
            degree: near(&mut random, 5),
            taken: near(&mut random, 18),
            claim: random.number(),
            rejected: random.one_in(3),
        };
        compare_close(&state, if random.one_in(2) { state.claim } else { random.number() });
        let length = random.about(state.degree.min(4) as usize + 1);
        let mut message = random.elements(length);
        if random.one_in(2) && length >= 2 {
            message.fill(0);
            message[1] = state.claim;
        }
        compare_step(&mut state, &message, random.number());
    }
}

#[test]
fn round_parts() {
    let mut random = Random::new(7);
    for _ in 0..50_000 {
        let i = inputs(&mut random);
        let round = random.below(9);
        let (m, k, s) = (u64::from(i.vars), u64::from(i.degree), wide(&i.messages));
        let answer = plain(round_part(i.vars, i.degree, &i.messages, round));
        let found = part::round_part(m, k, &s, u64::from(round));
        match (answer, part::part_number(m, k, &s, u64::from(round))) {
            (Ok(answer), 0) => {
                let (start, length) = (found.start as usize, found.length as usize);
                assert_eq!(answer, &i.messages[start..start + length]);
                assert_eq!(answer.as_ptr(), i.messages[start..].as_ptr());
            }
            (answer, number) => assert_eq!(answer, Err(number)),
        }
    }
}

fn file_text(i: &Inputs) -> String {
    let mut text = format!(
        "sumproof=1\nfield=2147483647\nvars={}\ndegree={}\nclaim={}\n",
        i.vars, i.degree, i.claim
    );
    for message in i.messages.chunks((i.degree as usize).saturating_add(1)) {
        let numbers: Vec<String> = message.iter().map(|x| x.to_string()).collect();
        text.push_str(&format!("round={}\n", numbers.join(",")));
    }
    text + &format!("end={}\n", i.vars)
}

/// One to three changes: a byte replaced, left out or put in; a line left out
/// or doubled; the end cut; something added.
fn damage_file(random: &mut Random, bytes: &mut Vec<u8>) {
    const LIKELY: &[u8] = b"0123456789,=\n\r -+azAZ.\0\xff";
    for _ in 0..1 + random.below(3) {
        if bytes.is_empty() {
            return;
        }
        let place = random.below(bytes.len() as u32) as usize;
        let byte = LIKELY[random.below(LIKELY.len() as u32) as usize];
        match random.below(7) {
            0 => bytes[place] = byte,
            1 => drop(bytes.remove(place)),
            2 => bytes.insert(place, byte),
            3 => bytes.truncate(place),
            4 => bytes.push(byte),
            5 => bytes.extend(vec![b'\n'; random.below(4100) as usize]),
            _ => {
                let mut lines: Vec<Vec<u8>> =
                    bytes.split(|b| *b == 10).map(|l| l.to_vec()).collect();
                let at = random.below(lines.len() as u32) as usize;
                if random.one_in(2) {
                    drop(lines.remove(at));
                } else {
                    lines.insert(at, lines[at].clone());
                }
                *bytes = lines.join(&10);
            }
        }
    }
}

#[test]
fn files() {
    let mut random = Random::new(8);
    let (mut good, mut bad) = (0, 0);
    for _ in 0..100_000 {
        let i = inputs(&mut random);
        let mut bytes = file_text(&i).into_bytes();
        if random.below(4) > 0 {
            damage_file(&mut random, &mut bytes);
        }
        let room = random.about(i.messages.len()) + random.below(2) as usize;
        let mut messages = random.anything(room);
        let mut expected = wide(&messages);
        let answer = read(&bytes, &mut messages)
            .map(|h| (u64::from(h.vars), u64::from(h.degree), u64::from(h.claim)))
            .map_err(|refusal| match refusal.line() {
                None => FileRefusal::Number(u64::from(refusal.number())),
                Some(line) => FileRefusal::Line(u64::from(refusal.number()), u64::from(line)),
            });
        match answer {
            Ok(_) => good += 1,
            Err(_) => bad += 1,
        }
        let header = file::read(N, &bytes, &mut expected).map(|h| (h.vars, h.degree, h.claim));
        assert_eq!(answer, header, "{:?}", String::from_utf8_lossy(&bytes));
        assert_eq!(wide(&messages), expected);
    }
    assert!(good > 10_000 && bad > 10_000, "{} {}", good, bad);
}

/// The largest sizes, which the tests above leave out.
#[test]
fn sixteen_variables() {
    let mut random = Random::new(9);
    for degree in 1..=3 {
        let tables = random.elements((degree as usize) << 16);
        let challenges = random.elements(16);
        let mut messages = vec![0; 16 * (degree as usize + 1)];
        let mut scratch = vec![1; tables.len()];
        prove(16, degree, &tables, &challenges, &mut messages, &mut scratch).unwrap();
        assert!(scratch.iter().all(|x| *x == 0));
        let (t, c, k) = (wide(&tables), wide(&challenges), u64::from(degree));
        assert_eq!(wide(&messages), rounds::true_messages(N, 16, k, &t, &c));
        let claim = true_sum(16, degree, &tables).unwrap();
        let verdict = check(16, degree, &tables, claim, &challenges, &messages);
        assert_eq!(verdict, Ok(Verdict::Accepted));
    }
}
