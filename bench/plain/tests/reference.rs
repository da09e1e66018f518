//! The reference program of the papers.

use torzimlak_plain::{assemble::assemble, machine, ops::ROWS};

const REFERENCE: &str = " SEC
SYSXX EXP E,1
ADDUP INP R,1
 SEC
THREE EQU 3
 SEC
 SEC
 SEC
START MOV =THREE,WA
 JSR ADDUP
 PPM DONE$
DONE$ JSR SYSXX
 PPM .
 BRN START
ADDUP PRC R,1
LOOPA ICV WB
 BCT WA,LOOPA
 EXI 1
 ENP
 SEC
 ERB 1,STACK FULL
 SEC
 BRN START
 END
";

#[test]
fn runs_as_the_papers_say() {
    let t = assemble(REFERENCE.as_bytes(), 100_000).expect("it is lawful");
    let mut m = vec![0; 256];
    let mut s = machine::start(&t, &mut m, &[], 0).expect("it starts");
    let (ending, steps) = machine::run(&t, &mut m, &mut s, 1000);
    let line = [
        ending,
        steps,
        s.pc,
        s.links.len() as u32,
        s.regs[1],
        s.regs[2],
        s.regs[3],
        s.regs[4],
        s.regs[5],
        s.regs[6],
        s.ia,
    ];
    assert_eq!(line, [20, 10, 3, 0, 764, 0, 1024, 0, 3, 0, 0]);
}

#[test]
fn rows_rise() {
    assert!(ROWS.windows(2).all(|w| w[0].number < w[1].number));
}
