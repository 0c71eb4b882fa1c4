//! A sheet that is not yet bytes: fields that can be changed by name.

use crate::random::Random;
use crate::scripts::{arrange, orders};
use crate::sheet::{Task, NAMES};

/// The fields of a task, in the order task, core, deadline, cards.
pub type Row = [String; 4];

pub struct Draft {
    /// The order of the names.
    pub order: [usize; 4],
    pub rows: Vec<Row>,
    /// Whether a newline ends the last line.
    pub ended: bool,
}

impl Draft {
    /// These tasks, in any order of the names.
    pub fn of(tasks: &[Task], random: &mut Random) -> Draft {
        Draft {
            order: *random.pick(&orders()),
            rows: tasks.iter().map(row).collect(),
            ended: random.percent(70),
        }
    }

    /// The lines without newlines, the names first.
    pub fn lines(&self) -> Vec<Vec<u8>> {
        let names = NAMES.map(str::to_string);
        std::iter::once(&names).chain(&self.rows).map(|row| arrange(self.order, row)).collect()
    }

    pub fn bytes(&self) -> Vec<u8> {
        joined(&self.lines(), self.ended)
    }
}

/// Lines with newlines between, the last one with or without.
pub fn joined(lines: &[Vec<u8>], ended: bool) -> Vec<u8> {
    let mut bytes = lines.join(&b'\n');
    if ended {
        bytes.push(b'\n');
    }
    bytes
}

fn row(task: &Task) -> Row {
    let objects: Vec<String> = (0..64)
        .filter(|object| task.objects >> object & 1 == 1)
        .map(|object: u32| object.to_string())
        .collect();
    let cards = if objects.is_empty() { "-".to_string() } else { objects.join(",") };
    [task.number.to_string(), task.core.to_string(), task.deadline.to_string(), cards]
}
