//! The file of fixed answers, crates/vectors/data/answers.bin. Its layout stands in crates/vectors/README.md.
use crate::{Answer, Job, canonical, program_input};

/// The file's form word.
const FORM: u32 = 1;

pub fn file(answered: &[(Job, Answer)]) -> Vec<u8> {
    let mut out = Vec::new();
    out.extend(FORM.to_le_bytes());
    out.extend((answered.len() as u32).to_le_bytes());
    for (job, answer) in answered {
        let (input, told) = (program_input(job), answer_bytes(answer));
        out.extend((input.len() as u32).to_le_bytes());
        out.extend((told.len() as u32).to_le_bytes());
        out.extend(input);
        out.extend(told);
    }
    out
}

fn answer_bytes(answer: &Answer) -> Vec<u8> {
    let words = [answer.refusal, answer.step].into_iter().chain(answer.counts);
    let numbers = answer.list.iter().flat_map(|x| canonical(*x).to_le_bytes());
    words.flat_map(u32::to_le_bytes).chain(numbers).collect()
}

// ----- Reading it back -----------------------------------------------------------------

/// A record of the file: the job's parts as bytes and numbers, and its answer.
pub struct Record {
    pub inverse: bool,
    pub sheet: Vec<u8>,
    pub list: Vec<f64>,
    pub velocities: Vec<f64>,
    pub marks: Vec<u8>,
    pub answer: Answer,
}

pub fn records(file: &[u8]) -> Vec<Record> {
    let mut rest = Reader(file);
    assert_eq!(rest.word(), FORM, "form of the file");
    let count = rest.word();
    let all = (0..count).map(|_| record(&mut rest)).collect();
    assert!(rest.0.is_empty(), "bytes after the last record");
    all
}

fn record(rest: &mut Reader) -> Record {
    let (input, told) = (rest.word() as usize, rest.word() as usize);
    let (mut input, mut told) = (Reader(rest.bytes(input)), Reader(rest.bytes(told)));
    let [inverse, sheet, tuples, velocities] = [(); 4].map(|()| input.word() as usize);
    Record {
        inverse: inverse != 0,
        sheet: input.bytes(sheet).to_vec(),
        list: input.numbers(4 * tuples),
        velocities: input.numbers(3 * velocities),
        marks: input.bytes(velocities).to_vec(),
        answer: Answer {
            refusal: told.word(),
            step: told.word(),
            counts: [(); 16].map(|()| told.word()),
            list: told.numbers(4 * tuples),
        },
    }
}

struct Reader<'a>(&'a [u8]);

impl<'a> Reader<'a> {
    fn bytes(&mut self, n: usize) -> &'a [u8] {
        let (head, tail) = self.0.split_at(n);
        self.0 = tail;
        head
    }

    fn word(&mut self) -> u32 {
        u32::from_le_bytes(self.bytes(4).try_into().unwrap())
    }

    fn numbers(&mut self, n: usize) -> Vec<f64> {
        (0..n).map(|_| f64::from_le_bytes(self.bytes(8).try_into().unwrap())).collect()
    }
}
