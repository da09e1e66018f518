//! Real arithmetic, DRC and both kinds of files.

use torzimlak_plain::{assemble::assemble, check::check_table, machine, snapshot, Table};

const ROOM: usize = 20_000;
const BUILD: u32 = 7;

/// A deck with these working words and this program, which has the label START.
fn deck(words: &str, program: &str) -> String {
    format!(" SEC\n SEC\n SEC\n SEC\n{words} SEC\n{program} BRN START\n SEC\n ERB 1,FULL\n SEC\n ERB 2,BAD\n END\n")
}

/// The state after so many steps of this program, and where it stopped.
fn after(words: &str, program: &str, steps: u32) -> machine::State {
    let t = assemble(deck(words, program).as_bytes(), ROOM).expect("a lawful deck");
    assert!(check_table(&t));
    let mut m = vec![0; 256];
    let mut s = machine::start(&t, &mut m, &[], 0).expect("a start");
    assert_eq!((s.ra, s.real_flag), (0, false));
    assert_eq!(machine::run(&t, &mut m, &mut s, steps), (21, steps), "{program}");
    s
}

/// RA and its flag after LDR of one decimal and an operation on another.
fn of(one: &str, operation: &str, other: &str) -> (f64, bool) {
    let s = after(&format!("ONE$$ DRC {one}\nOTHER DRC {other}\n"), &format!("START LDR ONE$$\n {operation}\n"), 2);
    (s.real(), s.real_flag)
}

#[test]
fn rounded_once() {
    assert_eq!(of("0.1", "ADR OTHER", "0.2"), (0.1 + 0.2, false));
    assert_eq!(of("0.3", "SBR OTHER", "0.1"), (0.3 - 0.1, false));
    assert_eq!(of("1.1", "MLR OTHER", "1.1"), (1.1 * 1.1, false));
    assert_eq!(of("1.", "DVR OTHER", "3."), (1.0 / 3.0, false));
    assert_eq!(of("1.", "LDR OTHER", "-0.5"), (-0.5, false));
    assert_eq!(of("5.", "DVR OTHER", "0."), (5.0, true));
    assert_eq!(of("0.", "DVR OTHER", "-0."), (0.0, true));
    assert!(of("0.", "NGR", "1.").0.is_sign_negative());
}

/// Products up to the largest double and past it: RA stays where the flag is raised, and the next value set lowers it.
#[test]
fn overflow_keeps_ra() {
    let words = "LARGE DRC 1000000.\n";
    let grow = "START LDR LARGE\nLOOPA MLR LARGE\n RNO LOOPA\n";
    let largest = (0..50).fold(1e6, |x, _| x * 1e6);
    let s = after(words, grow, 1 + 2 * 51);
    assert_eq!((s.real(), s.real_flag), (largest, true));
    let s = after(words, &format!("{grow} NGR\n"), 2 + 2 * 51);
    assert_eq!((s.real(), s.real_flag), (-largest, false));
}

#[test]
fn whole_parts() {
    for (text, due) in [("2147483.647", 2147483), ("-0.9", 0), ("-1.", -1), ("999999999.999999", 999999999)] {
        let s = after(&format!("VALUE DRC {text}\n"), "START LDR VALUE\n RTI\n", 2);
        assert_eq!((s.ia as i32, s.pc), (due, 2), "{text}");
    }
    let edge = "HALF$ DRC 0.5\nBILLN DRC 2147483.648\nTHOUS DRC 1000.\n";
    let s = after(edge, "START LDR BILLN\n MLR THOUS\n SBR HALF$\n RTI START\n", 4);
    assert_eq!((s.ia as i32, s.pc), (i32::MAX, 4));
    let s = after(edge, "START LDR BILLN\n MLR THOUS\n RTI START\n", 3);
    assert_eq!((s.ia, s.pc, s.real()), (0, 0, 2147483648.0));
    let s = after(edge, "START LDR BILLN\n MLR THOUS\n RTI\n", 3);
    assert_eq!((s.ia, s.pc), (0, 3));
    let s = after(edge, "START LDR BILLN\n MLR THOUS\n NGR\n SBR HALF$\n RTI START\n ITR\n", 6);
    assert_eq!((s.ia as i32, s.pc, s.real()), (i32::MIN, 6, -2147483648.0));
}

/// The two words of a DRC, or the number of the refusal.
fn words_of(card: &str) -> Result<Vec<u32>, u32> {
    match assemble(deck(&format!("VALUE DRC{card}\n"), "START BRN START\n").as_bytes(), ROOM) {
        Ok(t) => Ok(t[t.len() - 2..].to_vec()),
        Err((number, line)) => {
            assert_eq!(line, 5);
            Err(number)
        }
    }
}

#[test]
fn decimals() {
    for text in
        ["0.", "5.", "+5.", "-5.", "0.1", "000000001.500000", "999999999.999999", "-0.000001", "123456789.", "00.10"]
    {
        let due = text.parse::<f64>().unwrap().to_bits();
        assert_eq!(words_of(&format!(" {text}")), Ok(vec![due as u32, (due >> 32) as u32]), "{text}");
    }
    assert_eq!((words_of(" -0."), words_of(" +0.000000")), (Ok(vec![0, 0]), Ok(vec![0, 0])));
    let others = [
        "5",
        ".5",
        ".",
        "-.5",
        "1.5E3",
        "1234567890.",
        "0.1234567",
        "1..",
        "+-1.",
        "WA",
        "START",
        "+5",
        "1.,",
        "1.5,WA",
        "1.A",
    ];
    for text in others {
        assert_eq!(words_of(&format!(" {text}")), Err(1), "{text}");
    }
    assert_eq!((words_of(""), words_of(" 1.5,2.5")), (Err(4), Err(4)));
    let elsewhere = assemble(deck("VALUE DIC 1.5\n", "START BRN START\n").as_bytes(), ROOM);
    assert_eq!(elsewhere, Err((1, 5)));
}

/// A fresh real is 0 in its first word alone; CFP$R is 2, and other names are not supplied.
#[test]
fn marks_and_names() {
    let t = assemble(deck("F$ONE DRC 0.1\n", "START BRN START\n").as_bytes(), ROOM).unwrap();
    let bits = 0.1f64.to_bits();
    assert_eq!((Table(&t).fresh(0), &t[t.len() - 2..]), (0, &[0, (bits >> 32) as u32][..]));
    let named = |name: &str| {
        deck("", &format!("START MOV ={name},WA\n")).replacen(" SEC\n SEC\n", &format!(" SEC\n SEC\n{name} EQU *\n"), 1)
    };
    let t = assemble(named("CFP$R").as_bytes(), ROOM).unwrap();
    assert_eq!(Table(&t).entry(0)[1..4], [1, 0, 2]);
    for name in ["CFP$S", "CFP$U", "CFP$X"] {
        assert_eq!(assemble(named(name).as_bytes(), ROOM), Err((5, 3)));
    }
}

/// 8,128 words are the most, and a text can have more.
#[test]
fn words_at_the_limit() {
    let full = |cards: usize| assemble(deck(&" DRC 0.\n".repeat(cards), "START BRN START\n").as_bytes(), ROOM);
    assert_eq!(full(4064).map(|t| Table(&t).workings()), Ok(8128));
    assert_eq!(full(4065), Err((9, 0)));
}

/// A machine whose RA is a tenth, with its flag on, and its file.
fn frozen() -> (Vec<u32>, Vec<u32>, machine::State, Vec<u8>) {
    let words = "F$ONE DAC 0\nTENTH DRC -0.1\n";
    let t = assemble(deck(words, "START LDR TENTH\n DVR F$ONE\n").as_bytes(), ROOM).unwrap();
    let mut m = vec![0; 256];
    let mut s = machine::start(&t, &mut m, &[0], 0).unwrap();
    s.ra = (-0.1f64).to_bits();
    s.real_flag = true;
    let mut file = vec![0; 4 * 257 + 76];
    assert_eq!(snapshot::write(&t, &m, &s, BUILD, &mut file), Ok(4 * 257 + 76));
    assert_eq!(snapshot::write(&t, &m, &s, BUILD, &mut file[1..]), Err(45));
    (t, m, s, file)
}

/// The state that a file wakes to.
fn woken(t: &[u32], file: &[u8]) -> Result<machine::State, u32> {
    snapshot::restore(t, file, BUILD, &[0], &mut vec![0; 256])
}

/// The file with one of its last words changed; 1 is L.
fn with(file: &[u8], from_end: usize, word: u32) -> Vec<u8> {
    let mut file = file.to_vec();
    let at = file.len() - 4 * from_end;
    file[at..at + 4].copy_from_slice(&word.to_le_bytes());
    file
}

#[test]
fn both_kinds_of_files() {
    let (t, _, s, file) = frozen();
    assert_eq!(woken(&t, &file), Ok(s.clone()));
    let length = file.len() as u32;
    let mut old = file.clone();
    old.drain(file.len() - 76..file.len() - 64);
    assert_eq!(woken(&t, &old), Err(40));
    assert_eq!(woken(&t, &with(&old, 1, length - 12)), Ok(machine::State { ra: 0, real_flag: false, ..s.clone() }));
    for other in [0, length - 12, length - 8, length - 4, length + 4, length + 12, u32::MAX] {
        // 12 less names the old kind, whose memory then lies three words further on
        assert_eq!(woken(&t, &with(&file, 1, other)), Err(if other == length - 12 { 41 } else { 40 }), "{other}");
    }
    assert_eq!(woken(&t, &with(&file, 17, 2)), Err(40));
    assert_eq!(woken(&t, &with(&file, 17, 0)), Ok(machine::State { real_flag: false, ..s.clone() }));
    for high in [0x7ff0_0000, 0xfff0_0000, 0x7ff8_0001, u32::MAX] {
        assert_eq!(woken(&t, &with(&file, 18, high)), Err(40));
    }
    assert_eq!(woken(&t, &with(&file, 18, 0xffef_ffff)).map(|s| s.ra >> 32), Ok(0xffef_ffff));
}

#[test]
fn states_hold_finite_reals() {
    let (t, m, s, _) = frozen();
    for x in [f64::INFINITY, f64::NEG_INFINITY, f64::NAN] {
        assert!(!machine::check_state(&t, m.len(), &machine::State { ra: x.to_bits(), ..s.clone() }));
    }
    for x in [0.0, -0.0, f64::MAX, f64::MIN, f64::MIN_POSITIVE, f64::from_bits(1)] {
        assert!(machine::check_state(&t, m.len(), &machine::State { ra: x.to_bits(), ..s.clone() }));
    }
}
