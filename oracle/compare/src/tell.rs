//! How a job and an answer are shown where they part.
use job::{Answer, Job, canonical, same, sheet};

pub fn hex(bytes: &[u8]) -> String {
    bytes.iter().map(|b| format!("{b:02x}")).collect()
}

fn tuple(numbers: &[f64]) -> String {
    let parts: Vec<String> = numbers.iter().map(|x| format!("{:016x} ({x:e})", canonical(*x))).collect();
    parts.join(", ")
}

/// The sheet, the first tuple that differs, and both answers to it.
pub fn difference(name: &str, job: &Job, rust: &Answer, ours: &Answer) {
    println!("{name}: the answers part, inverse {}", job.inverse);
    println!("  sheet {}", hex(&sheet(&job.steps)));
    println!("  steps {:?}", job.steps);
    println!("  Rust refusal {} step {} counts {:?}", rust.refusal, rust.step, rust.counts);
    println!("  ours refusal {} step {} counts {:?}", ours.refusal, ours.step, ours.counts);
    let pairs = rust.list.chunks_exact(4).zip(ours.list.chunks_exact(4));
    let parted = pairs.enumerate().find(|(_, (a, b))| !a.iter().zip(*b).all(|(x, y)| same(*x, *y)));
    if let Some((i, (a, b))) = parted {
        println!("  tuple {i} of {}", job.list.len() / 4);
        println!("    in   {}", tuple(&job.list[4 * i..4 * i + 4]));
        println!("    Rust {}", tuple(a));
        println!("    ours {}", tuple(b));
        if job.velocities.len() > 3 * i {
            println!("    velocity {} mark {}", tuple(&job.velocities[3 * i..3 * i + 3]), job.marks[i]);
        }
    }
}
