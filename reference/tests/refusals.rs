//! The refusal table: each row, its order against the rows below it, and that
//! a refused call changes nothing.

mod common;

use cards_reference::answer::Answer;
use cards_reference::call::Call;
use cards_reference::machine::dispatch;
use cards_reference::record::{Record, MAX_TICKETS};
use common::{call, machine};

/// Core 0 has a transaction, core 1 a job, core 2 nothing, core 3 a full list.
fn standing() -> Record {
    let mut lines = vec!["setup 4 2 -", "release 0 1 1", "begin 0 - -"];
    lines.push("release 1 1 1");
    lines.extend(["release 3 1 1"; 8]);
    machine(&lines).record
}

/// A call with everything that it is lent.
#[derive(Clone)]
struct Situation {
    record: Record,
    call: Call,
    committed: usize,
    pending: usize,
}

fn on(line: &str) -> Situation {
    let record = standing();
    let call = call(line);
    let (cores, objects) = match call {
        Call::Setup { cores, objects } => (cores, objects),
        _ => (record.cores, record.objects),
    };
    Situation { record, call, committed: objects as usize, pending: (cores * objects) as usize }
}

impl Situation {
    fn unsound(mut self) -> Situation {
        self.record.versions[0] = self.record.commits + 1;
        self
    }

    fn short_tables(mut self) -> Situation {
        self.committed -= 1;
        self.pending -= 1;
        self
    }

    fn tickets_spent(mut self) -> Situation {
        self.record.give_ups = MAX_TICKETS - 1;
        self.record.tickets = MAX_TICKETS;
        self
    }

    /// Makes the call; if it is refused, nothing may have changed.
    fn answer(&self) -> Answer {
        let mut committed: Vec<u32> = (100..).take(self.committed).collect();
        let mut pending: Vec<u32> = (500..).take(self.pending).collect();
        let lent = (committed.clone(), pending.clone());
        let (answer, after) = dispatch(self.record, self.call, &mut committed, &mut pending);
        if let Answer::Refused(_) = answer {
            let blank = matches!(self.call, Call::Setup { .. });
            let expected = if blank { Record::blank() } else { self.record };
            assert_eq!(after, expected);
            assert_eq!((committed, pending), lent);
        }
        answer
    }
}

fn rows() -> Vec<(u32, Situation)> {
    vec![
        (1, on("setup 0 2 -")),
        (1, on("setup 17 2 -")),
        (1, on("setup 2 0 -")),
        (1, on("setup 2 65 -")),
        (2, on("release 1 1 1").unsound()),
        (2, on("begin 1 - -").unsound()),
        (2, on("read 0 0 -").unsound()),
        (2, on("write 0 0 1").unsound()),
        (2, on("commit 0 - -").unsound()),
        (2, on("giveup 0 - -").unsound()),
        (2, on("finish 1 - -").unsound()),
        (3, on("setup 2 2 -").short_tables()),
        (3, on("read 0 0 -").short_tables()),
        (3, on("write 0 0 1").short_tables()),
        (3, on("commit 0 - -").short_tables()),
        (4, on("release 4 1 1")),
        (4, on("begin 4 - -")),
        (4, on("read 4 0 -")),
        (4, on("write 4 0 1")),
        (4, on("commit 4 - -")),
        (4, on("giveup 4 - -")),
        (4, on("finish 4 - -")),
        (4, on("finish 4294967295 - -")),
        (5, on("read 0 2 -")),
        (5, on("write 0 2 1")),
        (5, on("write 0 4294967295 1")),
        (6, on("release 3 1 1")),
        (7, on("begin 2 - -")),
        (7, on("finish 2 - -")),
        (8, on("begin 0 - -")),
        (8, on("finish 0 - -")),
        (9, on("read 1 0 -")),
        (9, on("write 1 0 1")),
        (9, on("commit 1 - -")),
        (9, on("giveup 1 - -")),
        (10, on("begin 1 - -").tickets_spent()),
    ]
}

#[test]
fn each_row() {
    for (number, situation) in rows() {
        let answer = situation.answer();
        assert_eq!(answer, Answer::Refused(number), "{:?}", situation.call);
    }
}

/// Two rows that apply at once: the smaller number, a situation where both do,
/// the larger number, and a situation where only that one does.
type Pair = (u32, Situation, u32, Situation);

/// Refusal 2 with each row below it.
fn pairs_with_unsound() -> Vec<Pair> {
    let below = rows()
        .into_iter()
        .filter(|(number, situation)| *number > 2 && !matches!(situation.call, Call::Setup { .. }));
    below.map(|(number, larger)| (2, larger.clone().unsound(), number, larger)).collect()
}

/// Refusal 3 with each row below it, and refusal 1 with 3.
fn pairs_with_short_tables() -> Vec<Pair> {
    let below = rows().into_iter().filter(|(number, situation)| {
        let lent =
            matches!(situation.call, Call::Read { .. } | Call::Write { .. } | Call::Commit { .. });
        *number > 3 && lent
    });
    let with =
        |(number, larger): (u32, Situation)| (3, larger.clone().short_tables(), number, larger);
    let mut pairs: Vec<Pair> = below.map(with).collect();
    let short = |line| Situation { committed: 1, ..on(line) };
    pairs.push((1, short("setup 0 2 -"), 3, short("setup 1 2 -")));
    pairs
}

/// The other pairs that can apply at once.
fn other_pairs() -> Vec<Pair> {
    let spent = |line| on(line).tickets_spent();
    vec![
        (4, on("read 4 2 -"), 5, on("read 0 2 -")),
        (4, on("write 4 2 1"), 5, on("write 0 2 1")),
        (5, on("read 1 2 -"), 9, on("read 1 0 -")),
        (5, on("write 1 2 1"), 9, on("write 1 0 1")),
        (4, spent("begin 4 - -"), 10, spent("begin 1 - -")),
        (7, spent("begin 2 - -"), 10, spent("begin 1 - -")),
        (8, spent("begin 0 - -"), 10, spent("begin 1 - -")),
    ]
}

#[test]
fn the_smallest_number_is_given() {
    let pairs = [pairs_with_unsound(), pairs_with_short_tables(), other_pairs()].concat();
    for (smaller, both, larger, mended) in pairs {
        assert!(smaller < larger);
        assert_eq!(both.answer(), Answer::Refused(smaller), "{:?}", both.call);
        assert_eq!(mended.answer(), Answer::Refused(larger), "{:?}", mended.call);
    }
}

#[test]
fn tables_wrong_by_one_each_way() {
    for line in ["setup 4 2 -", "read 0 1 -", "write 0 1 5", "commit 0 - -"] {
        let right = on(line);
        assert!(!matches!(right.answer(), Answer::Refused(_)), "{line}");
        for (committed, pending) in [(1, 8), (3, 8), (2, 7), (2, 9), (1, 7), (3, 9), (0, 0), (8, 2)]
        {
            let wrong = Situation { committed, pending, ..right.clone() };
            assert_eq!(wrong.answer(), Answer::Refused(3), "{line}");
        }
    }
}

#[test]
fn calls_without_tables_ask_for_none() {
    for line in ["release 1 1 1", "begin 1 - -", "giveup 0 - -", "finish 1 - -"] {
        let answer = on(line).short_tables().answer();
        assert!(!matches!(answer, Answer::Refused(_)), "{line}");
    }
}

#[test]
fn the_last_ticket_is_given() {
    let mut last = on("begin 1 - -");
    last.record.give_ups = MAX_TICKETS - 2;
    last.record.tickets = MAX_TICKETS - 1;
    assert_eq!(last.answer(), Answer::Begun(MAX_TICKETS - 1));
}

#[test]
fn the_blank_record_is_unsound() {
    for line in ["release 0 1 1", "begin 0 - -", "read 0 0 -", "write 0 0 1", "commit 0 - -"] {
        let mut blank = on(line);
        blank.record = Record::blank();
        assert_eq!(blank.answer(), Answer::Refused(2), "{line}");
    }
}

#[test]
fn a_refused_call_leaves_a_mark_in_place() {
    let lines = [
        "setup 2 2 -",
        "release 0 1 1",
        "release 1 1 1",
        "begin 0 - -",
        "begin 1 - -",
        "read 1 0 -",
        "write 0 0 1",
        "commit 0 - -",
    ];
    let record = machine(&lines).record;
    assert!(record.core[1].zombie);
    for (number, line) in
        [(5, "read 1 2 -"), (5, "write 1 2 1"), (8, "begin 1 - -"), (8, "finish 1 - -")]
    {
        let marked = Situation { record, pending: 4, ..on(line) };
        assert_eq!(marked.answer(), Answer::Refused(number), "{line}");
    }
    for line in ["read 1 0 -", "write 1 0 1", "commit 1 - -"] {
        let short = Situation { record, pending: 3, ..on(line) };
        assert_eq!(short.answer(), Answer::Refused(3), "{line}");
        let marked = Situation { record, pending: 4, ..on(line) };
        assert_eq!(marked.answer(), Answer::SetBack, "{line}");
    }
}
