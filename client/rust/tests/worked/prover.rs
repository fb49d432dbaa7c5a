//! The prover and the entries on tables.

use crate::plain;
use sendurafi::{prove, true_sum, value_at, P};

const TABLES: [u32; 8] = [0, 1, 2, 0, 3, 4, 1, 2];

#[test]
fn one_table_modulo_p() {
    let table = [3, 4, 1, 2];
    assert_eq!(value_at(2, 1, &table, &[5, 2]), Ok(2147483642));
    let (mut messages, mut scratch) = ([0; 4], [9; 4]);
    assert_eq!(prove(2, 1, &table, &[5, 2], &mut messages, &mut scratch), Ok(()));
    assert_eq!(messages, [7, 2147483643, 2147483640, 1]);
    assert_eq!(scratch, [0; 4]);
}

#[test]
fn places_to_spare_stay() {
    let (mut messages, mut scratch) = ([8; 7], [9; 10]);
    assert_eq!(prove(2, 2, &TABLES, &[3, 1], &mut messages, &mut scratch), Ok(()));
    assert_eq!(messages, [4, 0, 2147483645, 2147483629, 30, 2147483639, 8]);
    assert_eq!(scratch, [0, 0, 0, 0, 0, 0, 0, 0, 9, 9]);
}

/// Scratch is cleared even where there is no round.
#[test]
fn no_variables() {
    assert_eq!(true_sum(0, 2, &[5, 7]), Ok(35));
    let mut scratch = [9; 3];
    assert_eq!(prove(0, 2, &[5, 7], &[], &mut [], &mut scratch), Ok(()));
    assert_eq!(scratch, [0, 0, 9]);
}

/// Where two reasons apply, the first of the order is told; nothing is written.
#[test]
fn refusals() {
    let bad = [0, 1, 2, 0, 3, 4, 1, P];
    // vars, degree, tables, challenges, places of messages and of scratch
    let cases: [(u32, u32, &[u32], &[u32], usize, usize, u32); 4] = [
        (17, 0, &TABLES, &[3, 1], 6, 8, 1),
        (2, 2, &TABLES, &[3], 6, 7, 3),
        (2, 2, &bad, &[3, 1], 5, 8, 4),
        (2, 2, &bad, &[3, 1], 6, 8, 5),
    ];
    for (vars, degree, tables, challenges, places, room, number) in cases {
        let (mut messages, mut scratch) = (vec![8; places], vec![9; room]);
        let answer = prove(vars, degree, tables, challenges, &mut messages, &mut scratch);
        assert_eq!(plain(answer), Err(number));
        assert_eq!(messages, vec![8; places]);
        assert_eq!(scratch, vec![9; room]);
    }
}

/// What the rounds of the largest sizes are, by another calculation.
#[rustfmt::skip]
const LARGEST: [u32; 64] = [
    877377325, 600968955, 1532049676, 1941708612,
    1764921632, 805528126, 1123457474, 1640759351,
    1833331454, 1854874589, 1446339525, 1143103684,
    1773708523, 915318758, 1882036757, 1984364913,
    330490080, 1826355784, 994153205, 151647072,
    1516108063, 120636887, 449238484, 277767747,
    1880203817, 1112858537, 1599136780, 1070984859,
    1796699915, 319528050, 1538272049, 1100440281,
    455109950, 1780416248, 792338090, 1319821809,
    1461157352, 827967620, 1607254608, 216201800,
    692900615, 1783229997, 1723581795, 1670875811,
    769113447, 322936576, 1877138650, 927872518,
    465823672, 1516590133, 17738400, 1096829355,
    1666730068, 676614075, 99298712, 256,
    1178939254, 314997540, 12413659, 16,
    2115103904, 438738186, 1880599987, 1,
];

/// Sixteen variables and three tables; place i of the list is i modulo 1000.
#[test]
fn the_largest_sizes() {
    let tables: Vec<u32> = (0..196608).map(|place| place % 1000).collect();
    let challenges: Vec<u32> = (1..=16).collect();
    assert_eq!(true_sum(16, 3, &tables), Ok(1534514599));
    assert_eq!(value_at(16, 3, &tables, &challenges), Ok(942244132));
    let (mut messages, mut scratch) = ([0; 64], vec![9; 196608]);
    assert_eq!(prove(16, 3, &tables, &challenges, &mut messages, &mut scratch), Ok(()));
    assert_eq!(messages, LARGEST);
    assert!(scratch.iter().all(|place| *place == 0));
}
