//! Assembles and runs each file named, with a budget of 100,000 steps in 8,192 words: ending, steps, place.
use torzimlak_plain::{assemble::assemble, machine, Table};

fn main() {
    for path in std::env::args().skip(1) {
        let text = std::fs::read(&path).expect("a readable file");
        let t = match assemble(&text, 10_000) {
            Ok(t) => t,
            Err((n, l)) => {
                println!("{path} refused {n} {l}");
                continue;
            }
        };
        let mut m = vec![0; 8192];
        let fresh = vec![1; Table(&t).fresh_count()];
        let mut s = machine::start(&t, &mut m, &fresh, 0).expect("a lawful table");
        let (e, k) = machine::run(&t, &mut m, &mut s, 100_000);
        println!("{path} {e} {k} {} {:?}", s.pc, s.regs);
    }
}
