//! From a sheet to a shifted fix, and to a kept run with one fix corrected.
//!
//! Prints each number twice: for a person, and as its 64 bits, which are the same on every box. examples/rust/first_fix.expected has what is printed.
use sillfeather::{Cart, Convention, Direction, Ellipsoid, Helmert, KeptRun, Refusal, Sheet};

fn main() -> Result<(), Refusal> {
    let sheet = ed50_to_wgs84()?;
    println!("a sheet of {} steps, {} bytes", sheet.step_count(), sheet.as_bytes().len());

    // the bytes are what the other box gets; it checks them
    let sheet = Sheet::from_bytes(sheet.as_bytes())?;
    let mut cut = sheet.as_bytes().to_vec();
    cut.pop();
    match Sheet::from_bytes(&cut) {
        Ok(_) => println!("a byte less: taken"),
        Err(refusal) => println!("a byte less: {refusal}"),
    }

    shift_a_list(&sheet)?;
    keep_and_correct()
}

/// EPSG 1311, ED50 to WGS 84 in the North Sea: to geocentric on International 1924, shifted, and back on WGS 84.
fn ed50_to_wgs84() -> Result<Sheet, Refusal> {
    Sheet::builder()
        .step(Cart { ellipsoid: Ellipsoid::International1924 })
        .step(Helmert {
            convention: Some(Convention::PositionVector),
            translation: [-89.5, -93.8, -123.1],
            rotation: [0.0, 0.0, -0.156],
            scale: 1.2,
            ..Helmert::BLANK
        })
        .inverted(Cart { ellipsoid: Ellipsoid::Wgs84 })
        .build()
}

fn shift_a_list(sheet: &Sheet) -> Result<(), Refusal> {
    let mut fixes = [[2.5, 56.5, 0.0, 2024.5], [3.25, 57.125, 12.0, 2024.5]].map(in_radians);
    let counts = sheet.shift(Direction::Forward, &mut fixes)?;
    println!("\nED50 to WGS 84, fixes counted by each step {:?}", counts.steps());
    for fix in fixes {
        let [longitude, latitude, height, _] = fix;
        println!("{:.7}° {:.7}° {height:.3} m", longitude.to_degrees(), latitude.to_degrees());
        println!("  {}", bits(fix));
    }
    Ok(())
}

/// EPSG 8405, ITRF2014 to ETRF2000: millimetres, microarcseconds, parts in 10⁶, and their rates a year from 2010.
fn keep_and_correct() -> Result<(), Refusal> {
    let sheet = Sheet::builder()
        .step(Helmert {
            mm: true,
            uas: true,
            own_epoch: true,
            convention: Some(Convention::PositionVector),
            translation: [54.7, 52.2, -74.1],
            translation_rate: [0.1, 0.1, -1.9],
            rotation: [1701.0, 10290.0, -16632.0],
            rotation_rate: [81.0, 490.0, -792.0],
            scale: 0.00212,
            scale_rate: 0.00011,
            t_epoch: Some(2010.0),
            ..Helmert::BLANK
        })
        .build()?;
    let line = [
        [3370658.378, 711877.314, 5349787.086, 2024.25],
        [3370660.878, 711879.814, 5349789.586, 2024.25],
        [3370663.378, 711882.314, 5349792.086, 2024.5],
    ];
    let mut run = KeptRun::keep(&sheet, Direction::Forward, &line)?;
    println!("\nITRF2014 to ETRF2000, kept");
    tell(&run);

    // the second fix was taken a quarter of a year later
    let redone = run.correct(1, [3370660.878, 711879.814, 5349789.586, 2024.5])?;
    println!("\nthe second fix corrected, {redone} redone");
    tell(&run);

    match run.correct(3, line[0]) {
        Ok(_) => println!("\na fourth fix: taken"),
        Err(refusal) => println!("\na fourth fix: {refusal}"),
    }
    Ok(())
}

fn tell(run: &KeptRun) {
    for fix in run.results() {
        println!("{:.4} {:.4} {:.4} at {}", fix[0], fix[1], fix[2], fix[3]);
        println!("  {}", bits(*fix));
    }
}

/// Longitude and latitude from degrees.
fn in_radians(fix: [f64; 4]) -> [f64; 4] {
    [fix[0].to_radians(), fix[1].to_radians(), fix[2], fix[3]]
}

fn bits(fix: [f64; 4]) -> String {
    fix.map(|x| format!("{:016x}", x.to_bits())).join(" ")
}
