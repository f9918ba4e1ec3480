//! Holds `sillfeather_check` against sheet_reader.py: reads what damaged.py writes, sheets each with the refusal expected.
//!
//!     python3 oracle/damaged.py | damaged
use compare::tell;
use std::collections::BTreeMap;
use std::io::{self, BufReader, Read};
use std::process::ExitCode;

fn main() -> ExitCode {
    let mut input = BufReader::new(io::stdin().lock());
    let (mut sheets, mut parted) = (0, 0);
    let mut numbers: BTreeMap<u32, usize> = BTreeMap::new();
    while let Some((expected, sheet)) = next(&mut input) {
        sheets += 1;
        *numbers.entry(expected.0).or_default() += 1;
        let told = ours::check(&sheet);
        if told != expected {
            parted += 1;
            if parted <= 5 {
                println!("sheet {sheets}: {expected:?} expected, {told:?} given: {}", tell::hex(&sheet));
            }
        }
    }
    println!("damaged sheets: {sheets}, by number of refusal {numbers:?}");
    println!("{} passed, {parted} failed", sheets - parted);
    if parted == 0 && sheets > 0 { ExitCode::SUCCESS } else { ExitCode::FAILURE }
}

/// The refusal expected and the sheet; none at the end.
fn next(input: &mut impl Read) -> Option<((u32, u32), Vec<u8>)> {
    let mut head = [0; 8];
    input.read_exact(&mut head).ok()?;
    let word = |at: usize| u32::from_le_bytes(head[at..at + 4].try_into().unwrap());
    let mut sheet = vec![0; word(0) as usize];
    input.read_exact(&mut sheet).expect("a whole sheet");
    Some(((word(4) % 65536, word(4) / 65536), sheet))
}
