//! Each rule of a sheet at its limit, groups and levels of small sheets.

use cards_reference::fields::{number, number_below, Places};
use cards_reference::scripts::orders;
use cards_reference::sheet::{
    fill, groups, levels, printed, read, task_levels, transaction_levels, Task, MAX_BYTES,
    MAX_LINE, NAMES, SHIPPED,
};

const HEAD: &str = "task core deadline cards\n";

/// A sheet of these lines, the names in the paper's order.
fn sheet(lines: &[&str]) -> Vec<u8> {
    [HEAD, &lines.join("\n"), "\n"].concat().into_bytes()
}

fn accepted(sheet: &[u8]) -> bool {
    read(sheet).is_some()
}

/// Whether a sheet of this one line is accepted.
fn line_accepted(line: &str) -> bool {
    accepted(&sheet(&[line]))
}

/// Tasks that use these objects, deadlines falling from the first on.
fn tasks_using(objects: &[u64]) -> Vec<Task> {
    let task = |(place, &objects): (usize, &u64)| Task {
        number: place as u16,
        core: 0,
        deadline: 1_000 - place as u32,
        objects,
    };
    objects.iter().enumerate().map(task).collect()
}

/// The groups of tasks that use these objects, as lists of places.
fn grouped(objects: &[u64]) -> Vec<Vec<usize>> {
    groups(&tasks_using(objects)).iter().map(|group| group.places().collect()).collect()
}

#[test]
fn table_6_1() {
    assert_eq!(printed(SHIPPED), b"1 6 6\n2 2 4\n3 3 4\n4 4 4\n5 1 6\n6 5 0\n");
    let tasks = read(SHIPPED).expect("the shipped sheet");
    let groups: Vec<Vec<usize>> = groups(&tasks).iter().map(|g| g.places().collect()).collect();
    assert_eq!(groups, [vec![0, 4], vec![1, 2, 3], vec![5]]);
    assert_eq!(tasks[2], Task { number: 3, core: 2, deadline: 80, objects: 6 });
}

#[test]
fn a_refusal_is_one_line() {
    assert_eq!(printed(b""), b"refused 13\n");
    assert_eq!(printed(&[SHIPPED, b"\n"].concat()), b"refused 13\n");
}

#[test]
fn zeros_are_a_sheet() {
    assert_eq!(printed(&sheet(&["0 0 0 -"])), b"0 1 0\n");
}

#[test]
fn names_in_every_order() {
    let fields = ["7", "3", "100", "1,5"];
    for order in orders() {
        let names = order.map(|place| NAMES[place]).join(" ");
        let values = order.map(|place| fields[place]).join(" ");
        let text = format!("{names}\n{values}\n");
        let task = Task { number: 7, core: 3, deadline: 100, objects: 34 };
        assert_eq!(read(text.as_bytes()), Some(vec![task]), "{text}");
    }
    assert_eq!(orders().len(), 24);
}

#[test]
fn bad_names() {
    let bad = [
        "task core deadline",
        "task core deadline cards cards",
        "task core deadline task",
        "task core deadline Cards",
        "task core deadline card",
        "task core  deadline cards",
        " task core deadline cards",
        "task core deadline cards ",
        "task\tcore deadline cards",
        "task core deadline cards\r",
        "\ntask core deadline cards",
        "",
    ];
    for names in bad {
        assert!(!accepted(format!("{names}\n1 0 5 -\n").as_bytes()), "{names}");
    }
}

#[test]
fn no_task_is_no_sheet() {
    for text in ["", "\n", "task core deadline cards", HEAD, "1 0 50 3\n"] {
        assert!(!accepted(text.as_bytes()), "{text}");
    }
}

#[test]
fn thirty_two_tasks() {
    let lines: Vec<String> = (0..33).map(|task| format!("{task} 0 5 -")).collect();
    let lines: Vec<&str> = lines.iter().map(String::as_str).collect();
    for (count, fits) in [(1, true), (31, true), (32, true), (33, false)] {
        assert_eq!(accepted(&sheet(&lines[..count])), fits, "{count}");
    }
}

#[test]
fn the_last_newline_may_be_missing() {
    let whole = sheet(&["1 0 50 3", "2 1 100 1"]);
    let without = &whole[..whole.len() - 1];
    assert_eq!(read(&whole), read(without));
    assert!(accepted(without));
    assert!(!accepted(&[&whole[..], b"\n"].concat()));
    assert!(!accepted(&sheet(&["1 0 50 3", "", "2 1 100 1"])));
    assert!(!accepted(&[b"\n", &whole[..]].concat()));
}

#[test]
fn numbers_at_their_limits() {
    for (good, bad) in [
        ("65535 0 5 -", "65536 0 5 -"),
        ("0 15 5 -", "0 16 5 -"),
        ("0 0 4294967295 -", "0 0 4294967296 -"),
        ("0 0 5 63", "0 0 5 64"),
        ("0 0 5 62,63", "0 0 5 63,64"),
        ("0 0 5 0", "0 0 5 00"),
        ("0 0 5 1,3", "0 0 5 3,1"),
        ("0 0 5 1,2", "0 0 5 1,1"),
        ("0 0 5 1", "0 0 5 1,"),
        ("0 0 5 10", "0 0 5 ,10"),
        ("0 0 5 1,2,3", "0 0 5 1,,3"),
        ("0 0 5 -", "0 0 5 -,1"),
        ("0 0 5 -", "0 0 5 "),
        ("0 0 5 -", "0 0 - -"),
        ("0 0 5 -", "- 0 5 -"),
        ("0 0 5 -", "0 - 5 -"),
        ("7 0 5 -", "07 0 5 -"),
        ("7 1 5 -", "7 01 5 -"),
        ("7 1 5 -", "7 1 05 -"),
        ("7 1 5 6", "7 1 5 06"),
        ("7 1 5 6", "+7 1 5 6"),
        ("7 1 5 6", "65543 1 5 6"),
        ("7 1 5 6", "7 257 5 6"),
        ("7 1 5 6", "7 4294967297 5 6"),
        ("7 1 5 6", "7 1 4294967301 6"),
        ("7 1 5 6", "7 1 18446744073709551621 6"),
        ("7 1 5 6", "7 1 5 262"),
        ("7 1 5 6", "7 1 5 4294967302"),
    ] {
        assert!(line_accepted(good), "{good}");
        assert!(!line_accepted(bad), "{bad}");
    }
}

#[test]
fn one_space_between_four_fields() {
    let spaces = ["1  0 5 -", "1 0 5  -", " 1 0 5 -", "1 0 5 - ", "1\t0 5 -"];
    let others =
        ["1 0 5", "1 0 5 - -", "1 0 5 1 2", "1 0 5 -\r", "1 0 5 -\0", "1\x000 5 -", "1,0,5,-"];
    for line in spaces.into_iter().chain(others) {
        assert!(!line_accepted(line), "{line:?}");
    }
}

#[test]
fn tasks_differ() {
    assert!(accepted(&sheet(&["1 0 5 -", "2 0 5 -"])));
    assert!(!accepted(&sheet(&["1 0 5 -", "1 1 6 2"])));
    assert!(!accepted(&sheet(&["1 0 5 -", "1 0 5 -"])));
    assert!(!accepted(&sheet(&["1 0 5 -", "2 0 5 -", "1 0 5 -"])));
}

/// The limit on a line's bytes, names and values, at both sides.
#[test]
fn a_line_has_at_most_so_many_bytes() {
    let names = [&b"a"[..], b"bc"];
    let places = Places::of(names, b"bc a", 4).expect("four bytes");
    assert_eq!(Places::of(names, b"bc a", 3), None);
    assert_eq!(places.fields(b"x yz", 4), Some([&b"yz"[..], b"x"]));
    assert_eq!(places.fields(b"x yz", 3), None);
    assert_eq!(MAX_LINE, 1_024);
}

/// No well-formed line is so long, so the sheet's limit shows nothing of its own.
#[test]
fn lines_at_the_limit_are_refused_either_way() {
    for length in [1_023, 1_024, 1_025, 1_026] {
        for filler in [" ", "0", "1,", "x"] {
            let line = format!("1 0 5 {}", filler.repeat(length));
            assert!(!line_accepted(&line[..length]));
        }
    }
}

#[test]
fn longest_input() {
    let all: Vec<String> = (0..64).map(|object| object.to_string()).collect();
    let line = |task: usize| format!("{} 15 4294967295 {}", 65_535 - task, all.join(","));
    let lines: Vec<String> = (0..32).map(line).collect();
    let lines: Vec<&str> = lines.iter().map(String::as_str).collect();
    let longest = sheet(&lines);
    assert_eq!(lines[0].len(), 201);
    assert!(accepted(&longest));
    assert!(!accepted(&[&longest[..], &[b'x'; MAX_BYTES]].concat()));
    assert!(!accepted(&vec![b'\n'; 1_000_000]));
    assert!(!accepted(&sheet(&lines).repeat(3)));
}

#[test]
fn numbers() {
    assert_eq!(number(b"0"), Some(0));
    assert_eq!(number(b"4294967295"), Some(u32::MAX));
    for field in
        ["", "00", "01", "4294967296", "99999999999", "-1", "+1", "1 ", "a", "1_0", "\u{661}"]
    {
        assert_eq!(number(field.as_bytes()), None, "{field}");
    }
    assert_eq!(number_below(16, b"15"), Some(15));
    assert_eq!(number_below(16, b"16"), None);
}

#[test]
fn levels_count_different_deadlines() {
    let mut tasks = tasks_using(&[0; 6]);
    for (task, deadline) in tasks.iter_mut().zip([50, 50, 100, 7, 100, u32::MAX]) {
        task.deadline = deadline;
    }
    assert_eq!(task_levels(&tasks), [3, 3, 2, 4, 2, 1]);
    assert_eq!(transaction_levels(&tasks, &task_levels(&tasks)), [0; 6]);
    assert_eq!(task_levels(&tasks_using(&[0; 32])), (1..=32).collect::<Vec<u32>>());
}

#[test]
fn groups_go_through_chains() {
    assert_eq!(grouped(&[1, 2, 4]), [[0], [1], [2]]);
    assert_eq!(grouped(&[1, 2, 3]), [[0, 1, 2]]);
    assert_eq!(grouped(&[0, 0, 0]), [[0], [1], [2]]);
    assert_eq!(grouped(&[1, 0, 1]), [vec![0, 2], vec![1]]);
    assert_eq!(grouped(&[1, 4, 2, 8, 3, 12]), [[0, 2, 4], [1, 3, 5]]);
    assert_eq!(grouped(&[1, 4, 2, 8, 3, 12, 6]), [[0, 1, 2, 3, 4, 5, 6]]);
    let chain: Vec<u64> = (0..32).map(|place| 3 << place).collect();
    assert_eq!(grouped(&chain), [(0..32).collect::<Vec<usize>>()]);
    let backwards: Vec<u64> = chain.iter().rev().copied().collect();
    assert_eq!(grouped(&backwards), [(0..32).collect::<Vec<usize>>()]);
}

#[test]
fn a_transaction_has_the_highest_level_of_its_group() {
    // Task levels are 1 to 6; the last task is alone, the second has no objects.
    let tasks = tasks_using(&[1, 0, 3, 2, 6, 8]);
    assert_eq!(transaction_levels(&tasks, &task_levels(&tasks)), [5, 0, 5, 5, 5, 6]);
}

#[test]
fn a_list_keeps_what_it_should() {
    let right = [[1, 6, 6], [2, 2, 4], [3, 3, 4], [4, 4, 4], [5, 1, 6], [6, 5, 0]];
    assert_eq!(levels(SHIPPED).as_deref(), Some(&right[..]));
    for length in 0..40 {
        let mut list = vec![9; length];
        let count = fill(SHIPPED, &mut list);
        let filled = if length < 18 { 0 } else { 18 };
        assert_eq!(count, filled / 3);
        assert_eq!(list[..filled], right.as_flattened()[..filled]);
        assert!(list[filled..].iter().all(|&word| word == 9));
    }
    let mut list = [9; 96];
    assert_eq!(fill(b"", &mut list), 0);
    assert_eq!(list, [9; 96]);
}
