//! Asks the questions of one name.

use std::hint::black_box;

use differ::{compare, Lent, Library, Plain, Reader};
use make::questions::Question;

/// Questions, with room for what is written.
pub struct Asker {
    questions: Vec<Question>,
    output: Lent,
}

impl Asker {
    pub fn new(questions: Vec<Question>) -> Asker {
        let octets = |question: &Question| match question {
            Question::Write { room, .. }
            | Question::MoveTo2(_, room)
            | Question::MoveTo1(_, room)
            | Question::Room { room, .. }
            | Question::Signers { room, .. } => *room,
            _ => 0,
        };
        let table =
            |question: &Question| if let Question::Room { table_room, .. } = question { *table_room } else { 0 };
        let numbers = |question: &Question| if let Question::Replay { room, .. } = question { *room } else { 0 };
        let output = Lent {
            octets: vec![0; questions.iter().map(octets).max().unwrap_or(0)],
            table: vec![0; questions.iter().map(table).max().unwrap_or(0)],
            list: vec![0; questions.iter().map(numbers).max().unwrap_or(0)],
        };
        Asker { questions, output }
    }

    /// Asks each question once.
    pub fn ask(&mut self, reader: &dyn Reader) {
        for question in &mut self.questions {
            black_box(reader.answer(black_box(question), &mut self.output));
        }
    }

    /// How many questions pass, and how many there are; nothing where library and plain reader differ.
    pub fn agreed(&self) -> Option<String> {
        let mut passed = 0;
        for question in &self.questions {
            let answer = compare(&Library, &Plain, question).ok()?;
            passed += (answer.head().0 == 0) as usize;
        }
        Some(format!("{passed} of {}", self.questions.len()))
    }
}
