//! Asks two readers and compares.

use std::fmt;
use std::hint::black_box;
use std::time::{Duration, Instant};

use make::questions::{Question, Source};

use crate::answer::Answer;
use crate::reader::{Lent, Reader};
use crate::show::{hex, kind, show};

/// What one reader did with a question.
#[derive(Debug, PartialEq, Eq)]
struct Told {
    answer: Answer,
    /// The whole lent output after the call.
    output: Lent,
    /// Whether the lent bytes are as before.
    kept: bool,
}

/// A question that two readers answer in two ways.
#[derive(Debug)]
pub struct Difference {
    pub seed: u64,
    /// The question's number from 0.
    pub index: u64,
    pub question: Question,
    told: [Told; 2],
}

impl fmt::Display for Difference {
    fn fmt(&self, to: &mut fmt::Formatter<'_>) -> fmt::Result {
        writeln!(to, "seed {}, question {}: {}", self.seed, self.index, kind(&self.question))?;
        let same_output = self.told[0].output == self.told[1].output;
        for (which, told) in ["first ", "second"].iter().zip(&self.told) {
            writeln!(to, "{which} {:?}", told.answer)?;
            if !told.kept {
                writeln!(to, "{which} changed the lent bytes")?;
            }
            if !same_output {
                let Lent { octets, table, list } = &told.output;
                writeln!(to, "{which} output {}, table {}, list {list:?}", hex(octets), hex(table))?;
            }
        }
        write!(to, "{}", show(&self.question))
    }
}

/// Both answers are one answer, and that of the first reader by another way, where it has one; else the difference, with seed and
/// index 0.
pub fn compare(first: &dyn Reader, second: &dyn Reader, question: &Question) -> Result<Answer, Box<Difference>> {
    let answer = pair(first, second, question)?;
    match first.other(question) {
        Some(other) => pair(first, other, question),
        None => Ok(answer),
    }
}

fn pair(first: &dyn Reader, second: &dyn Reader, question: &Question) -> Result<Answer, Box<Difference>> {
    let told = [ask(first, question), ask(second, question)];
    if told[0] == told[1] && told[0].kept {
        return Ok(told[0].answer);
    }
    Err(Box::new(Difference { seed: 0, index: 0, question: question.clone(), told }))
}

fn ask(reader: &dyn Reader, question: &Question) -> Told {
    let mut lent = question.clone();
    let mut output = lend(question);
    let answer = reader.answer(&mut lent, &mut output);
    // A call may have written where the compiler does not expect it.
    let kept = *black_box(&lent) == *question;
    Told { answer, output: black_box(output), kept }
}

/// What the question says is lent, each element with contents of its own.
fn lend(question: &Question) -> Lent {
    match question {
        Question::Write { room, .. }
        | Question::MoveTo2(_, room)
        | Question::MoveTo1(_, room)
        | Question::Signers { room, .. } => Lent { octets: octets(*room, 0xA5), ..Lent::default() },
        Question::Room { room, table_room, .. } => {
            Lent { octets: octets(*room, 0xA5), table: octets(*table_room, 0x5A), ..Lent::default() }
        }
        Question::Replay { room, .. } => {
            Lent { list: (0..*room).map(|at| u64::MAX - at as u64).collect(), ..Lent::default() }
        }
        _ => Lent::default(),
    }
}

fn octets(room: usize, first: usize) -> Vec<u8> {
    (0..room).map(|at| (at * 7 + first) as u8).collect()
}

/// When to stop: after this many questions or this much time.
#[derive(Clone, Copy, Debug, Default)]
pub struct Limits {
    pub count: Option<u64>,
    pub time: Option<Duration>,
}

/// Asks the questions of a seed, up to the first difference, and gives the number
/// of questions. `each` hears of every answer that both gave.
pub fn run(
    first: &dyn Reader,
    second: &dyn Reader,
    seed: u64,
    limits: Limits,
    mut each: impl FnMut(&Question, &Answer),
) -> Result<u64, Box<Difference>> {
    let start = Instant::now();
    let mut source = Source::new(seed);
    let mut index = 0;
    while limits.count.map_or(true, |count| index < count) && limits.time.map_or(true, |time| start.elapsed() < time) {
        let question = source.next();
        match compare(first, second, &question) {
            Ok(answer) => each(&question, &answer),
            Err(found) => return Err(Box::new(Difference { seed, index, ..*found })),
        }
        index += 1;
    }
    Ok(index)
}
