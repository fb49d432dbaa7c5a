//! An ordinary prover and checker in Rust: tables folded in half for each
//! round, u64 arithmetic with `% p`, no cleverness beyond that. Inputs are
//! taken as they come; nothing is judged.

const P: u64 = sendurafi::P as u64;
const HALF: u64 = 1073741824;
const SIXTH: u64 = 1789569706;

/// a + b for elements.
fn plus(a: u64, b: u64) -> u64 {
    let sum = a + b;
    if sum >= P {
        sum - P
    } else {
        sum
    }
}

/// a - b for elements.
fn less(a: u64, b: u64) -> u64 {
    plus(a, P - b)
}

/// Writes all rounds' polynomials. `room` is as long as the tables.
#[inline(never)]
pub fn prove(
    degree: u32,
    tables: &[u32],
    challenges: &[u32],
    messages: &mut [u32],
    room: &mut [u32],
) {
    room.copy_from_slice(tables);
    match degree {
        1 => rounds::<1>(challenges, messages, room),
        2 => rounds::<2>(challenges, messages, room),
        _ => rounds::<3>(challenges, messages, room),
    }
}

fn rounds<const K: usize>(challenges: &[u32], messages: &mut [u32], room: &mut [u32]) {
    let size = room.len() / K;
    let mut length = size;
    for (message, r) in messages.chunks_mut(K + 1).zip(challenges) {
        length /= 2;
        let mut values = [0; 4];
        sums::<K>(room, size, length, &mut values);
        let coefficients = through(K, values.map(|value| value % P));
        for (place, coefficient) in message.iter_mut().zip(coefficients) {
            *place = coefficient as u32;
        }
        for table in room.chunks_mut(size) {
            fold(table, length, u64::from(*r));
        }
    }
}

/// The round's polynomial at 0, 1, .., K, as sums of elements below 2^47.
fn sums<const K: usize>(room: &[u32], size: usize, length: usize, values: &mut [u64; 4]) {
    let mut low: [&[u32]; K] = [&[]; K];
    let mut high: [&[u32]; K] = [&[]; K];
    for t in 0..K {
        let table = &room[t * size..t * size + 2 * length];
        low[t] = &table[..length];
        high[t] = &table[length..];
    }
    for i in 0..length {
        let mut now = [0; K];
        let mut step = [0; K];
        for t in 0..K {
            now[t] = u64::from(low[t][i]);
            step[t] = less(u64::from(high[t][i]), now[t]);
        }
        for value in values.iter_mut().take(K + 1) {
            *value += product(&now);
            for t in 0..K {
                now[t] = plus(now[t], step[t]);
            }
        }
    }
}

fn product<const K: usize>(factors: &[u64; K]) -> u64 {
    let mut result = factors[0];
    for factor in &factors[1..] {
        result = result * factor % P;
    }
    result
}

/// The coefficients of the polynomial of degree k through its values at
/// 0, 1, .., k, by differences.
fn through(k: usize, v: [u64; 4]) -> [u64; 4] {
    let first = less(v[1], v[0]);
    if k == 1 {
        return [v[0], first, 0, 0];
    }
    let second = less(less(v[2], v[1]), first);
    let half = second * HALF % P;
    if k == 2 {
        // v0 + first·X + half·X(X-1)
        return [v[0], less(first, half), half, 0];
    }
    let third = less(less(less(v[3], v[2]), less(v[2], v[1])), second);
    let sixth = third * SIXTH % P;
    // .. + sixth·X(X-1)(X-2), which is sixth·(X^3 - 3X^2 + 2X)
    let one = plus(less(first, half), 2 * sixth % P);
    [v[0], one, less(half, 3 * sixth % P), sixth]
}

/// The first `length` places become the table with its first variable at r.
fn fold(table: &mut [u32], length: usize, r: u64) {
    let (low, high) = table.split_at_mut(length);
    for (a, b) in low.iter_mut().zip(high.iter()) {
        let (x, y) = (u64::from(*a), u64::from(*b));
        *a = ((x + r * less(y, x)) % P) as u32;
    }
}

fn value_at(message: &[u32], x: u64) -> u64 {
    message.iter().rev().fold(0, |value, c| (value * x + u64::from(*c)) % P)
}

/// All rounds and the final check. `room` is as long as the tables.
#[inline(never)]
pub fn check(
    degree: u32,
    tables: &[u32],
    claim: u32,
    challenges: &[u32],
    messages: &[u32],
    room: &mut [u32],
) -> bool {
    let mut running = u64::from(claim);
    for (message, r) in messages.chunks(degree as usize + 1).zip(challenges) {
        if plus(value_at(message, 0), value_at(message, 1)) != running {
            return false;
        }
        running = value_at(message, u64::from(*r));
    }
    room.copy_from_slice(tables);
    let size = tables.len() / degree as usize;
    let mut f = 1;
    for table in room.chunks_mut(size) {
        let mut length = size;
        for r in challenges {
            length /= 2;
            fold(table, length, u64::from(*r));
        }
        f = f * u64::from(table[0]) % P;
    }
    f == running
}
