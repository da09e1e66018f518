//! The texts: a full deck, and those that take longest or are refused.

const BYTES: usize = 32_768;

/// 1,024 operations, 512 labels and comments to about 32 KB.
pub fn full() -> Vec<u8> {
    let mut text = String::from(" SEC\nSYSXX EXP E,0\n SEC\n");
    for i in 0..100 {
        text += &format!("EQU{i:02} EQU {i}\n");
    }
    text += " SEC\n SEC\n";
    for i in 0..100 {
        text += &format!("WRD{i:02} DAC {i}\n");
    }
    text += " SEC\n";
    for i in 0..1020 {
        let label = if i < 310 { format!("LA{i:03}") } else { String::new() };
        let (word, equal, to) = (i % 100, i * 7 % 100, i * 13 % 310);
        text += &match i % 3 {
            0 => format!("{label} MOV WRD{word:02},WA ABCDEFG\n"),
            1 => format!("{label} ADD =EQU{equal:02},WRD{word:02}\n"),
            _ => format!("{label} BNE WA,WRD{word:02},LA{to:03}\n"),
        };
    }
    text += " BRN LA000\n SEC\n ERB 1,FULL\n SEC\n ERB 2,BAD\n BRN LA000\n";
    while text.len() < 32_700 {
        text += "* A COMMENT OF FORTY BYTES, AS MANY HAVE\n";
    }
    (text + " END\n").into_bytes()
}

/// A unit repeated to the byte limit.
fn repeated(unit: &[u8]) -> Vec<u8> {
    unit.repeat(BYTES / unit.len())
}

/// As many different labels as fit, in section 1.
fn labels() -> Vec<u8> {
    let mut text = b" SEC\n SEC\n".to_vec();
    for i in 0.. {
        let line = format!("L{i:04} EQU 1\n");
        if text.len() + line.len() > BYTES {
            break;
        }
        text.extend(line.bytes());
    }
    text
}

/// Texts of 32 KB that make much work or little sense.
pub fn worst() -> Vec<(&'static str, Vec<u8>)> {
    let sections = b" SEC\n SEC\n SEC\n SEC\n SEC\n";
    vec![
        ("empty lines", repeated(b"\n")),
        ("one-byte cards", repeated(b"X\n")),
        ("labels alone", repeated(b"LABEL\n")),
        ("EQU cards, all labels differ", labels()),
        ("short operations", [sections.as_slice(), &repeated(b" NGI\n")[..BYTES - 30]].concat()),
        ("comment lines", repeated(b"* A COMMENT OF FORTY BYTES, AS MANY HAVE\n")),
    ]
}
