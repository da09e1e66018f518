//! Assembles each file named: its name, 0 and the table's length, or number and line of the refusal.
use torzimlak_plain::assemble::assemble;

fn main() {
    for path in std::env::args().skip(1) {
        let text = std::fs::read(&path).expect("a readable file");
        let (n, l) = match assemble(&text, 1000) {
            Ok(t) => (0, t.len()),
            Err((n, l)) => (n, l),
        };
        println!("{} {n} {l}", path.rsplit('/').next().unwrap());
    }
}
