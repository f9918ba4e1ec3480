//! make_sheets FOLDER: writes the published shifts of shifts.rs into a folder, four files each, made by the library.
//!
//! NAME.sheet has the sheet's bytes; NAME.job the bytes that the program `shift` reads from its standard input; NAME.expected the lines that it then prints;
//! NAME.txt all of that for a person: the source, each step's fields that are not blank, and the fixes before and after.
mod shifts;
mod text;

use std::path::Path;
use std::{env, fs, io, process};

use shifts::Published;
use sillfeather::{Direction, Refusal, Sheet};

fn main() {
    let Some(folder) = env::args().nth(1) else {
        eprintln!("make_sheets FOLDER");
        process::exit(2);
    };
    for shift in shifts::all() {
        if let Err(why) = write(Path::new(&folder), &shift) {
            eprintln!("{}: {why}", shift.name);
            process::exit(1);
        }
    }
}

fn write(folder: &Path, shift: &Published) -> io::Result<()> {
    let sheet = sheet(shift).map_err(io::Error::other)?;
    let (expected, results) = match run(&sheet, shift) {
        Ok((counts, list)) => (text::lines(&counts, &list), list),
        Err(refusal) => return Err(io::Error::other(refusal)),
    };
    let file = |ending: &str| folder.join(format!("{}.{ending}", shift.name));
    fs::write(file("sheet"), sheet.as_bytes())?;
    fs::write(file("job"), job(&sheet, shift))?;
    fs::write(file("expected"), expected)?;
    fs::write(file("txt"), text::description(shift, &sheet, &results))
}

fn sheet(shift: &Published) -> Result<Sheet, Refusal> {
    let add = |builder: sillfeather::SheetBuilder, &(inverted, step): &(bool, sillfeather::Step)| {
        if inverted { builder.inverted(step) } else { builder.step(step) }
    };
    shift.steps.iter().fold(Sheet::builder(), add).build()
}

fn run(sheet: &Sheet, shift: &Published) -> Result<(Vec<u32>, Vec<[f64; 4]>), Refusal> {
    let mut list = shift.list();
    let counts = sheet.shift_with(shift.direction, &mut list, &shift.velocities, &shift.marks)?;
    Ok((counts.steps().to_vec(), list))
}

/// Direction, sheet length, tuple count, velocity count; sheet; tuples; velocities; marks.
fn job(sheet: &Sheet, shift: &Published) -> Vec<u8> {
    let list = shift.list();
    let direction = u32::from(shift.direction == Direction::Inverse);
    let words = [direction, sheet.as_bytes().len() as u32, list.len() as u32, shift.velocities.len() as u32];
    let numbers = list.as_flattened().iter().chain(shift.velocities.as_flattened());
    let mut job: Vec<u8> = words.into_iter().flat_map(u32::to_le_bytes).collect();
    job.extend(sheet.as_bytes());
    job.extend(numbers.flat_map(|x| x.to_le_bytes()));
    job.extend(&shift.marks);
    job
}
