//! Random decks, lawful for the most part, and ways to spoil them.
#![allow(dead_code)]

pub mod lent;
mod random;
pub mod real_machine;
pub mod reals;

pub use random::{cases, share, Random};
use torzimlak_plain::ops::{Class, Format, Row, Slot, ROWS};

/// What a deck declares.
struct Names {
    equals: Vec<String>,
    words: Vec<String>,
    entries: usize,
    procedures: Vec<usize>,
    externals: Vec<usize>,
}

fn procedure(i: usize) -> String {
    format!("PRC{i:02}")
}

fn external(i: usize) -> String {
    format!("EXP{i:02}")
}

fn register_x(r: &mut Random) -> &'static str {
    r.pick::<&str>(&["XL", "XR", "XS", "XT"])
}

fn register_w(r: &mut Random) -> &'static str {
    r.pick::<&str>(&["WA", "WB", "WC"])
}

/// A text for an operand of a format; `label` names a place of the body.
fn operand(r: &mut Random, names: &Names, slot: Slot, label: &str) -> String {
    if slot.optional && r.once_in(3) {
        return ".".into();
    }
    let x = register_x(r);
    let general = |r: &mut Random| -> String {
        match r.below(5) {
            0 if !names.words.is_empty() => r.pick(&names.words).clone(),
            1 => format!("({x})"),
            2 if !slot.still => format!("({x})+"),
            3 => format!("-({x})"),
            _ => match r.below(3) {
                0 if !names.words.is_empty() => format!("{}({x})", r.pick(&names.words)),
                1 if !names.equals.is_empty() => format!("{}({x})", r.pick(&names.equals)),
                _ => format!("{}({x})", r.below(40)),
            },
        }
    };
    match slot.format {
        Format::Opv if r.once_in(3) => match r.below(4) {
            0 if !names.equals.is_empty() => format!("*{}", r.pick(&names.equals)),
            1 if names.entries > 0 => format!("=ENT{:02}", r.below(names.entries)),
            2 if !names.words.is_empty() => format!("={}", r.pick(&names.words)),
            _ if !names.equals.is_empty() => format!("={}", r.pick(&names.equals)),
            _ => register_w(r).into(),
        },
        Format::Opv | Format::Opn if r.once_in(2) => if r.once_in(2) { register_w(r) } else { x }.into(),
        Format::Opw if r.once_in(2) => register_w(r).into(),
        Format::Opv | Format::Opn | Format::Opw => general(r),
        Format::Ops => match r.below(3) {
            0 => format!("({x})"),
            1 if !names.words.is_empty() => r.pick(&names.words).clone(),
            _ => format!("{}({x})", r.below(30)),
        },
        Format::Opc => {
            let x = r.pick(&["XL", "XR", "XT"]);
            r.pick(&[format!("({x})"), format!("({x})+"), format!("-({x})")]).clone()
        }
        Format::Reg => if r.once_in(2) { register_w(r) } else { x }.into(),
        Format::X => x.into(),
        Format::W => register_w(r).into(),
        Format::Val if !names.equals.is_empty() && r.once_in(2) => r.pick(&names.equals).clone(),
        Format::Val | Format::Int => format!("{}", r.below(70)),
        Format::Shift => format!("{}", r.below(33)),
        Format::Plbl => label.into(),
        Format::Glbl => "GLB00".into(),
        Format::Pnam => procedure(0),
        Format::None | Format::Ptyp | Format::Eqop | Format::Addr | Format::Integer | Format::Real => ".".into(),
    }
}

fn written(r: &mut Random, names: &Names, row: &Row, label: &str) -> String {
    let used: Vec<Slot> = row.slots.iter().copied().take_while(|s| s.format != Format::None).collect();
    let texts: Vec<String> = used.iter().map(|s| operand(r, names, *s, label)).collect();
    format!("{} {}", row.mnemonic, texts.join(","))
}

/// The way out of a procedure with so many exits: by one of them, or past them all.
fn exi(r: &mut Random, exits: usize) -> String {
    if exits > 0 && r.once_in(2) {
        format!("EXI {}", 1 + r.below(exits))
    } else {
        "EXI".into()
    }
}

/// A body's cards: some operations with labels `prefix` 000 and on, the last of which does not go on.
fn body(r: &mut Random, names: &Names, prefix: &str, inside: Option<usize>, deck: &mut Vec<String>) {
    let count = 2 + r.below(14);
    let label = |i: usize| format!("{prefix}{i:03}");
    for i in 0..count {
        let target = label(r.below(count));
        let row = loop {
            let row = r.pick(&ROWS);
            let fits = match row.class {
                Class::Goes | Class::Forks | Class::Chk | Class::Bri | Class::Jsr | Class::Bsw | Class::Erb => true,
                Class::Brn => r.once_in(4),
                Class::Exi => inside.is_some(),
                Class::Sss => inside.is_none(),
                _ => false,
            };
            if fits {
                break row;
            }
        };
        match row.class {
            Class::Jsr => {
                let (name, exits) = match r.below(2) {
                    0 if !names.procedures.is_empty() => {
                        let p = r.below(names.procedures.len());
                        (procedure(p), names.procedures[p])
                    }
                    _ if !names.externals.is_empty() => {
                        let e = r.below(names.externals.len());
                        (external(e), names.externals[e])
                    }
                    _ => {
                        deck.push(format!("{} CHK", label(i)));
                        continue;
                    }
                };
                deck.push(format!("{} JSR {name}", label(i)));
                for _ in 0..exits {
                    deck.push(match r.below(4) {
                        0 => " PPM".into(),
                        1 => format!(" ERR {},WRONG", r.below(900)),
                        _ => format!(" PPM {}", label(r.below(count))),
                    });
                }
            }
            Class::Bsw => {
                let cases = r.below(5);
                let default = if r.once_in(2) { format!(",{target}") } else { String::new() };
                deck.push(format!("{} BSW {},{}{default}", label(i), register_x(r), cases + r.below(3)));
                for v in 0..cases {
                    deck.push(format!(" IFF {v},{}", label(r.below(count))));
                }
                deck.push(" ESW".into());
            }
            Class::Erb => deck.push(format!("{} ERB {},NO GOOD", label(i), r.below(900))),
            Class::Exi => {
                let card = exi(r, names.procedures[inside.unwrap()]);
                deck.push(format!("{} {card}", label(i)));
            }
            _ => {
                let card = written(r, names, row, &target);
                deck.push(format!("{} {card}", label(i)));
            }
        }
    }
    deck.push(match inside {
        Some(p) => format!(" {}", exi(r, names.procedures[p])),
        None => format!(" BRN {}", label(0)),
    });
}

/// A decimal that a DRC takes.
pub fn decimal(r: &mut Random) -> String {
    let digits = |r: &mut Random, n: usize| -> String { (0..n).map(|_| *r.pick(&['0', '1', '5', '7', '9'])).collect() };
    let (before, behind) = (1 + r.below(9), r.below(7));
    format!("{}{}.{}", r.pick(&["", "+", "-"]), digits(r, before), digits(r, behind))
}

/// A random deck.
pub fn deck(r: &mut Random) -> Vec<String> {
    let names = Names {
        equals: (0..r.below(4)).map(|i| format!("EQU{i:02}")).collect(),
        words: (0..r.below(6))
            .map(|i| if r.once_in(4) { format!("F$W{i:02}") } else { format!("WRD{i:02}") })
            .collect(),
        entries: r.below(3),
        procedures: (0..r.below(4)).map(|_| r.below(3)).collect(),
        externals: (0..r.below(3)).map(|_| r.below(3)).collect(),
    };
    let mut d = vec!["* A RANDOM DECK".to_string(), " SEC".into()];
    for (i, n) in names.externals.iter().enumerate() {
        d.push(format!("{} EXP E,{n}", external(i)));
    }
    for (i, n) in names.procedures.iter().enumerate() {
        d.push(format!("{} INP R,{n}", procedure(i)));
    }
    d.push("GLB00 GLB".into());
    d.push(" SEC".into());
    for (i, e) in names.equals.iter().enumerate() {
        d.push(match i {
            0 => format!("{e} EQU {}", r.below(90)),
            _ => format!("{e} EQU {}+{}", names.equals[i - 1], r.below(9)),
        });
    }
    d.push(" SEC".into());
    let constants = r.below(names.words.len() + 1);
    for (i, w) in names.words.iter().enumerate() {
        if i == constants {
            d.push(" SEC".into());
        }
        d.push(match r.below(5) {
            0 => format!("{w} DIC {}{}", if r.once_in(2) { "-" } else { "+" }, r.next() >> 34),
            1 => format!("{w} DTC /{}/", &"SOME TEXT OF WORDS"[..1 + r.below(17)]),
            2 => format!("{w} DBC {}", r.below(2000)),
            3 => format!("{w} DRC {}", decimal(r)),
            _ => format!("{w} DAC {}", r.below(200)),
        });
    }
    if constants == names.words.len() {
        d.push(" SEC".into());
    }
    d.push(" SEC".into());
    body(r, &names, "LA", None, &mut d);
    for i in 0..names.entries {
        let value = if r.once_in(2) { format!(" {}", r.below(50)) } else { String::new() };
        d.push(format!("ENT{i:02} ENT{value}"));
        d.push(" BRN LA000".into());
    }
    d.push("GLB00 BRN LA000".into());
    for (i, n) in names.procedures.iter().enumerate() {
        d.push(format!("{} PRC R,{n}", procedure(i)));
        body(r, &names, &format!("P{i}"), Some(i), &mut d);
        d.push(" ENP".into());
    }
    d.push(" SEC".into());
    body(r, &names, "LB", None, &mut d);
    d.push(" SEC".into());
    body(r, &names, "LC", None, &mut d);
    d.push(" END".into());
    d
}

/// The deck as bytes.
pub fn text(deck: &[String]) -> Vec<u8> {
    deck.iter().flat_map(|l| l.bytes().chain([b'\n'])).collect()
}

/// A line put away, doubled, moved or changed in one byte.
pub fn spoil(r: &mut Random, deck: &mut Vec<String>) {
    if deck.is_empty() {
        return;
    }
    let i = r.below(deck.len());
    match r.below(8) {
        0 => drop(deck.remove(i)),
        1 => deck.insert(i, deck[i].clone()),
        2 => {
            let j = r.below(deck.len());
            deck.swap(i, j);
        }
        3 => {
            let row = r.pick(&ROWS);
            let tail = deck[i].split_whitespace().last().unwrap_or("").to_string();
            deck.insert(i, format!(" {} {tail}", row.mnemonic));
        }
        4 => {
            let words: Vec<String> =
                deck.iter().flat_map(|l| l.split([' ', ',']).map(String::from)).filter(|w| !w.is_empty()).collect();
            if words.is_empty() {
                return;
            }
            let (old, new) = (r.pick(&words).clone(), r.pick(&words).clone());
            deck[i] = deck[i].replacen(&old, &new, 1);
        }
        _ => {
            let mut bytes = deck[i].clone().into_bytes();
            let at = r.below(bytes.len() + 1);
            let new = *r.pick(b" ,.*()+-=$ABCDEFGLMNRSTWXZ0123459\t~");
            match r.below(3) {
                0 if at < bytes.len() => bytes[at] = new,
                1 if at < bytes.len() => drop(bytes.remove(at)),
                _ => bytes.insert(at, new),
            }
            deck[i] = String::from_utf8(bytes).unwrap();
        }
    }
}
