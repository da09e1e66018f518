//! Runs each file named to its end, going on past the first wait if it has fresh words, and shows WA characters from XL on.
use torzimlak_plain::{assemble::assemble, machine, Table};

fn main() {
    for path in std::env::args().skip(1) {
        let text = std::fs::read(&path).expect("a readable file");
        let t = match assemble(&text, 10_000) {
            Ok(t) => t,
            Err((n, l)) => {
                println!("{path} refused {n} {l}");
                continue;
            }
        };
        let mut m = vec![0; 256];
        let fresh = vec![0xC0FFEE42; Table(&t).fresh_count()];
        let mut s = machine::start(&t, &mut m, &fresh, 3).expect("a lawful table");
        let (mut e, mut k) = machine::run(&t, &mut m, &mut s, 1000);
        if !fresh.is_empty() {
            machine::resume(&t, &mut m, &mut s, 0);
            (e, k) = machine::run(&t, &mut m, &mut s, 1000);
        }
        let shown: String =
            (s.regs[1]..s.regs[1] + s.regs[4]).map(|a| (m[a as usize / 4] >> (8 * (a % 4))) as u8 as char).collect();
        println!("{path} {e} {k} {shown}");
    }
}
