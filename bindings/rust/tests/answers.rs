//! Endings and refusals: their numbers, their words, and how they pass through a host.

use std::collections::BTreeSet;
use torzimlak::{Ending, Machine, Refusal, Table};

const BUILD: u32 = 3;

/// Refusals and endings are told in plain English, with number and line.
#[test]
fn answers_are_worded() {
    let fault = Table::assemble(b" SEC\n SEC\n FOO\n").unwrap_err();
    assert_eq!(fault.to_string(), "line 3: refused (2): the operation is unknown, or not of this section");
    let fault = Table::assemble(&[b'*'; 32_769]).unwrap_err();
    assert_eq!(fault.to_string(), "refused (9): the text is over 32,768 bytes, or the program over a limit");
    let refusal = Table::from_words(vec![1, 2, 3]).unwrap_err();
    assert_eq!(refusal.to_string(), "refused (30): the table does not pass its check");
    let texts: BTreeSet<String> = Ending::ALL.iter().map(Ending::to_string).collect();
    assert_eq!(texts.len(), Ending::ALL.len());
    let texts: BTreeSet<String> = Refusal::ALL.iter().map(Refusal::to_string).collect();
    assert_eq!(texts.len(), Refusal::ALL.len());
}

/// The numbers are those of the papers, each of one ending or refusal.
#[test]
fn answers_are_numbered() {
    assert!(Ending::ALL.iter().map(|e| e.number()).eq(20..=29));
    assert!(Refusal::ALL.iter().map(|r| r.number()).eq((1..=10).chain(30..=33).chain(40..=45)));
    for number in (0..100).chain([u32::MAX]) {
        assert_eq!(Ending::try_from(number).map(Ending::number).ok(), (20..30).contains(&number).then_some(number));
        let is_refusal = matches!(number, 1..=10 | 30..=33 | 40..=45);
        assert_eq!(Refusal::try_from(number).map(Refusal::number).ok(), is_refusal.then_some(number));
    }
}

/// Every call fits `?`, where all errors are boxed and where they become a refusal.
#[test]
fn errors_fit_question_marks() {
    fn boxed(cards: &[u8], words: usize, build: u32) -> Result<Ending, Box<dyn std::error::Error>> {
        let table = Table::assemble(cards)?;
        let machine = Machine::start_in(&table, vec![0; words], &[1], 0)?;
        let mut machine = machine.freeze(BUILD).wake_in(&table, build, &[1], vec![0; words])?;
        Ok(Ending::try_from(machine.run(10)?.ending.number())?)
    }
    fn refused(cards: &[u8], words: usize, build: u32) -> Result<Ending, Refusal> {
        let table = Table::assemble(cards)?;
        let machine = Machine::start_in(&table, vec![0; words], &[1], 0)?;
        let mut machine = machine.freeze(BUILD).wake_in(&table, build, &[1], vec![0; words])?;
        Ok(machine.run(10)?.ending)
    }
    assert_eq!(boxed(CARDS, 256, BUILD).unwrap(), Ending::BudgetUsed);
    for (cards, words, build, number) in
        [(&CARDS[..CARDS.len() - 5], 256, BUILD, 8), (CARDS, 255, BUILD, 10), (CARDS, 256, 0, 41)]
    {
        let refusal = refused(cards, words, build).unwrap_err();
        assert_eq!(refusal.number(), number);
        assert_eq!(boxed(cards, words, build).unwrap_err().to_string(), refusal.to_string());
    }
}

/// A program with one fresh word.
const CARDS: &[u8] = b" SEC
 SEC
 SEC
 SEC
F$TOK DAC 0
 SEC
START MOV F$TOK,WA
STOP$ BRN STOP$
 SEC
 ERB 1,STACK
 SEC
ERROR BRN ERROR
 END
";
