//! DRC cards by both assemblers: operands of every form, in every section, and the words of the lawful ones beside Rust's own reading of
//! decimals.

mod common;

use common::lent::{assembles_alike, expect_all, number, ROOM};
use common::{cases, decimal, Random};
use std::collections::BTreeSet;
use torzimlak::{sys, Machine, Refusal, Table};

/// A deck with some cards at the end of a section, of 0 to 6.
fn deck(section: usize, cards: &str) -> String {
    const SECTIONS: [&str; 7] =
        ["", "TWO$$ EQU 2\n", "CONST DAC 1\n", "COUNT DAC 1\n", "START BRN START\n", " BRN START\n", " BRN START\n"];
    let mut sections = SECTIONS.map(|own| format!(" SEC\n{own}"));
    sections[section] += cards;
    sections.concat() + " END\n"
}

/// Some digits.
fn digits(r: &mut Random, most: usize) -> String {
    (0..r.below(most + 1)).map(|_| *r.pick(&['0', '0', '1', '2', '5', '9'])).collect()
}

/// Bytes to stand in a decimal.
const BYTES: &[u8] = b"ED ,.+-=*(0$A~";
/// Operands that other cards take.
const FORMS: &str = "WA CONST TWO$$ NONE$ 5 +5 -7 . * =CONST (XL) (XL)+ 2(XL) R (( 1-1";

/// An operand: a decimal, one with too many or too few digits, with another byte in it, or what other cards take.
fn operand(r: &mut Random) -> String {
    match r.below(8) {
        0..=3 => decimal(r),
        4 => {
            let (sign, point) = (*r.pick(&["", "+", "-", "+-"]), *r.pick(&["", ".", ".", ".."]));
            format!("{sign}{}{point}{}", digits(r, 11), digits(r, 8))
        }
        5 => {
            let mut text = decimal(r);
            text.insert(r.below(text.len() + 1), *r.pick(BYTES) as char);
            text
        }
        6 => format!("{}E{}", decimal(r), digits(r, 2)),
        _ => r.pick(&FORMS.split(' ').collect::<Vec<_>>()).to_string(),
    }
}

/// Cards of any section with decimals, and the same answers of both assemblers.
#[test]
fn cards() {
    let mut r = Random::new(31);
    let mut seen = BTreeSet::new();
    for _ in 0..cases(60_000) {
        let operands: Vec<String> = (0..*r.pick(&[0, 1, 1, 1, 1, 1, 1, 2, 3])).map(|_| operand(&mut r)).collect();
        let label = r.pick(&["", "", "VALUE", "F$VAL", "R$VAL", "COUNT", "BAD", "5"]);
        let name =
            if r.once_in(8) { *r.pick(&["DIC", "DAC", "DBC", "DTC", "EQU", "LDR", "STR", "MOV"]) } else { "DRC" };
        let comment = r.pick(&["", "", " A COMMENT", " ,1.5"]);
        let section = *r.pick(&[0, 1, 2, 2, 2, 3, 3, 3, 3, 4, 5, 6]);
        let text = deck(section, &format!("{label} {name} {}{comment}\n", operands.join(",")));
        seen.insert(number(&assembles_alike(text.as_bytes(), ROOM)));
    }
    expect_all("cards", &seen, [0, 1, 2, 3, 4, 5]);
}

/// The last two words of the table with this card in section 3, or number and line.
fn words_of(card: &str) -> Result<[u32; 2], (u32, usize)> {
    let table = assembles_alike(deck(3, &format!("{card}\n")).as_bytes(), ROOM)?;
    Ok(*table.last_chunk().unwrap())
}

/// The words of a decimal are those of the nearest double, with one rounding; zero has no sign.
#[test]
fn values() {
    let mut r = Random::new(32);
    let random: Vec<String> = (0..cases(40_000)).map(|_| decimal(&mut r)).collect();
    let edges = "0. -0. +0.000000 5. 0.1 999999999.999999 -999999999. 000000000.000001 123456789.012345 00.10";
    for text in random.iter().map(String::as_str).chain(edges.split(' ')) {
        let x: f64 = text.parse().unwrap();
        let bits = if x == 0.0 { 0 } else { x.to_bits() };
        assert_eq!(words_of(&format!("VALUE DRC {text}")), Ok([bits as u32, (bits >> 32) as u32]), "{text}");
    }
}

/// Each other form is 1, a second decimal or none 4; and 1.5 is 1 on every other card.
#[test]
fn refusals() {
    const LINE: usize = 8;
    let others =
        "5 +5 . .5 -.5 1.5E3 1.E3 1234567890. 0.1234567 1.. +-1. WA START =START (XL) 1., ,1. 1.5,WA 1.5,. 1.A";
    for text in others.split(' ') {
        assert_eq!(words_of(&format!("VALUE DRC {text}")), Err((1, LINE)), "{text}");
    }
    for text in ["", " ", " 1.5,2.5", " 1.,-1.,0."] {
        assert_eq!(words_of(&format!("VALUE DRC{text}")), Err((4, LINE)), "{text}");
    }
    for card in ["DIC 1.5", "DAC 1.5", "DBC 1.5"] {
        assert_eq!(words_of(&format!("VALUE {card}")), Err((1, LINE)), "{card}");
    }
    for (card, due) in [(" DRC 1.5\n", 2), (" DRC 1\n", 1), (" DRC\n", 2)] {
        assert_eq!(number(&assembles_alike(deck(4, card).as_bytes(), ROOM)), due, "{card}");
    }
}

/// `F$` marks the first word alone: it is 0 in the table and the host's in memory, and the second one stays.
#[test]
fn fresh_reals() {
    let high = (0.1f64.to_bits() >> 32) as u32;
    assert_eq!(words_of("F$VAL DRC 0.1"), Ok([0, high]));
    let table = Table::assemble(deck(3, "F$VAL DRC 0.1\n").as_bytes()).unwrap();
    let machine = Machine::start(&table, 256, &[0xFEED], 0).unwrap();
    assert_eq!((table.fresh_words(), &machine.memory()[2..4]), (1, &[0xFEED, high][..]));
}

/// CFP$R is 2; S, U and X have no value.
#[test]
fn supplied_names() {
    for (name, due) in [("CFP$R", 0), ("CFP$S", 5), ("CFP$U", 5), ("CFP$X", 5)] {
        let text = deck(1, &format!("{name} EQU *\n")).replace("START BRN", &format!("START MOV ={name},WA\n BRN"));
        let answer = assembles_alike(text.as_bytes(), ROOM);
        assert_eq!(number(&answer), due, "{name}");
        if let Ok(table) = answer {
            assert_eq!(table[8..12], [101, 1, 0, 2]);
        }
    }
}

/// A text can have more words than there may be: 4,064 reals fill the 8,128, and one more is 9.
#[test]
fn words_at_the_limit() {
    let full = |cards: usize| {
        let text = deck(3, &" DRC 0.\n".repeat(cards)).replace("CONST DAC 1\n", "").replace("COUNT DAC 1\n", "");
        assert!(text.len() <= 32_768);
        assembles_alike(text.as_bytes(), ROOM)
    };
    let table = Table::from_words(full(4064).unwrap()).unwrap();
    assert_eq!(table.own_words(), 8128);
    assert!(Machine::start(&table, sys::MAX_MEMORY, &[], 0).is_ok());
    assert_eq!(Machine::start(&table, sys::MAX_MEMORY - 1, &[], 0), Err(Refusal::UnfitLength));
    assert_eq!(full(4065), Err((9, 0)));
}
