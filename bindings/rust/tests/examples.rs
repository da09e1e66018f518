//! Each program of examples/ gives the answer that its comments and the guide promise.

use torzimlak::{Ending, Machine, Table};

const BUDGET: u32 = 10_000;

fn table(name: &str) -> Table {
    let path = format!("{}/../../examples/{name}.min", env!("CARGO_MANIFEST_DIR"));
    Table::assemble(&std::fs::read(path).unwrap()).unwrap()
}

/// The text that a program shows where it waits: WA characters from XL on.
fn shown(machine: &Machine) -> String {
    let [xl, _, _, wa, ..] = machine.state().registers();
    let byte = |a: u32| (machine.memory()[a as usize / 4] >> (8 * (a % 4))) as u8 as char;
    (xl..xl + wa).map(byte).collect()
}

/// What a program shows at its first call of the host.
fn first_answer(name: &str) -> String {
    let table = table(name);
    let mut machine = Machine::start(&table, 256, &vec![0; table.fresh_words()], 0).unwrap();
    assert_eq!(machine.run(BUDGET).unwrap().ending, Ending::Waiting);
    shown(&machine)
}

/// The token of a visitor with this fresh word, woken from one file.
fn token(word: u32) -> String {
    let table = table("token");
    let mut warm = Machine::start(&table, 256, &[0], 0).unwrap();
    assert_eq!(warm.run(BUDGET).unwrap().ending, Ending::Waiting);
    let mut machine = warm.freeze(1).wake(&table, 1, &[word]).unwrap();
    machine.resume(0).unwrap();
    assert_eq!(machine.run(BUDGET).unwrap().ending, Ending::Waiting);
    shown(&machine)
}

/// What discount.min shows for a customer of this class and a price, which the host writes where it stands: in the program's first two
/// working words.
fn discounted(table: &Table, class: u32, price: f64) -> String {
    let mut machine = Machine::start(table, 256, &[], class).unwrap();
    let at = table.words()[1] as usize;
    machine.memory_mut()[at..at + 2].copy_from_slice(&[price.to_bits() as u32, (price.to_bits() >> 32) as u32]);
    assert_eq!(machine.run(BUDGET).unwrap().ending, Ending::Waiting);
    shown(&machine)
}

#[test]
fn greeting() {
    assert_eq!(first_answer("greeting"), "HELLO, ANNA!");
}

#[test]
fn basket() {
    assert_eq!(first_answer("basket"), (1999 * 2 + 450 + 5 * 12).to_string());
}

/// The classes, and the percent that each one pays.
const CLASSES: [(u32, u64); 6] = [(0, 100), (1, 95), (2, 90), (3, 75), (4, 100), (u32::MAX, 100)];

/// A price less its rate is the nearest cent, as whole numbers give it; where two are as near, either may be.
#[test]
fn discount() {
    assert_eq!(first_answer("discount"), "199.97");
    let table = table("discount");
    for cents in (0..40_000).step_by(37).chain([1, 2, 99, 100, 101, 19997, 2_147_483_646, 2_147_483_647]) {
        for (class, percent) in CLASSES {
            let (due, rest) = ((cents * percent + 50) / 100, cents * percent % 100);
            if rest != 50 {
                let got = discounted(&table, class, cents as f64 / 100.0);
                assert_eq!(got, format!("{}.{:02}", due / 100, due % 100), "{cents} cents, class {class}");
            }
        }
    }
    // the last ones are more cents than IA can have, by their price or by rounding
    for price in [f64::INFINITY, f64::NAN, -0.01, -1e308, f64::MAX, 1e300, 21474836.48, 21474836.476] {
        assert_eq!(discounted(&table, 0, price), "NO PRICE", "{price}");
    }
}

/// What currency.min shows of an amount by a rate, which the host writes where they stand: the program's first two working words.
fn in_currency(amount: i32, rate: i32) -> String {
    let table = table("currency");
    let mut machine = Machine::start(&table, 256, &[], 0).unwrap();
    machine.memory_mut()[2..4].copy_from_slice(&[amount as u32, rate as u32]);
    assert_eq!(machine.run(BUDGET).unwrap().ending, Ending::Waiting);
    shown(&machine)
}

/// IOV takes its branch after a division by 0 and after the one whose quotient is out of range, and no other.
#[test]
fn currency() {
    assert_eq!(first_answer("currency"), "NO PRICE");
    for amount in [i32::MIN, i32::MIN + 1, -1250, -1, 0, 1, 1250, i32::MAX] {
        for rate in [i32::MIN, -4, -1, 0, 1, 4, i32::MAX] {
            let due = amount.checked_div(rate).map_or("NO PRICE".to_string(), |price| price.to_string());
            assert_eq!(in_currency(amount, rate), due, "{amount} by {rate}");
        }
    }
}

/// The room of memory for a program, with a price list in it: the count of articles, then their prices.
fn with_prices(table: &Table, prices: &[u32]) -> Vec<u32> {
    let mut memory = vec![0; 256];
    let room = table.own_words();
    memory[room] = prices.len() as u32;
    memory[room + 1..=room + prices.len()].copy_from_slice(prices);
    memory
}

/// A warm start finds the price list that the host has loaded, a plain one does not.
#[test]
fn pricelist() {
    assert_eq!(first_answer("pricelist"), "NOT LISTED");
    let table = table("pricelist");
    let prices = [1999, 450, 12, 0];
    let loaded = with_prices(&table, &prices);
    let mut machine = Machine::warm_start(&table, loaded.clone(), &[], 1).unwrap();
    for (i, article) in (1..=6).enumerate() {
        assert_eq!(machine.run(BUDGET).unwrap().ending, Ending::Waiting);
        let due = prices.get(i).map_or("NOT LISTED".to_string(), |price| price.to_string());
        assert_eq!(shown(&machine), due, "article {article}");
        machine.resume(0).unwrap();
        let mut registers = machine.state().registers();
        registers[3] = article + 1;
        machine.set_registers(registers);
    }
    let mut machine = Machine::start_in(&table, loaded, &[], 1).unwrap();
    assert_eq!(machine.run(BUDGET).unwrap().ending, Ending::Waiting);
    assert_eq!(shown(&machine), "NOT LISTED");
}

#[test]
fn replace() {
    assert_eq!(first_answer("replace"), "THE DOG SAW A DOGFISH AND ANOTHER DOG");
}

#[test]
fn tokens() {
    for word in [0, 1, 0x1234_ABCD, u32::MAX] {
        assert_eq!(token(word), format!("{word:08X}"));
    }
}
