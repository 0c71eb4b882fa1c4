//! Fields of a draft changed.

use super::draft::{Draft, Row};
use crate::random::Random;

/// Where the cards stand in a row.
const CARDS: usize = 3;

/// Some row of the draft.
fn some_row<'a>(draft: &'a mut Draft, random: &mut Random) -> &'a mut Row {
    let place = random.place(draft.rows.len());
    &mut draft.rows[place]
}

/// Some field of the draft, and its place in the row.
fn some_field<'a>(draft: &'a mut Draft, random: &mut Random) -> (usize, &'a mut String) {
    let place = random.place(4);
    (place, &mut some_row(draft, random)[place])
}

/// The list of cards of some row, at least so many of them.
fn with_cards(
    draft: &mut Draft,
    random: &mut Random,
    least: usize,
    change: impl Fn(&mut Random, &mut Vec<String>),
) {
    let field = &mut some_row(draft, random)[CARDS];
    let mut cards: Vec<String> =
        field.split(',').filter(|&item| item != "-").map(str::to_string).collect();
    if cards.len() < least {
        let first = random.below(30);
        cards = (0..least as u32).map(|item| (first + 3 * item).to_string()).collect();
    }
    change(random, &mut cards);
    *field = cards.join(",");
}

/// One number, an item of a list of cards too, changed by a function of its
/// place in the row and its text. A list without cards gets one first.
fn with_number(
    draft: &mut Draft,
    random: &mut Random,
    change: impl Fn(&mut Random, usize, &str) -> String,
) {
    if random.percent(40) {
        return with_cards(draft, random, 1, |random, cards| {
            let place = random.place(cards.len());
            cards[place] = change(random, CARDS, &cards[place]);
        });
    }
    let place = random.place(CARDS);
    let field = &mut some_row(draft, random)[place];
    *field = change(random, place, field);
}

/// Two tasks of one number.
pub fn equal_numbers(random: &mut Random, draft: &mut Draft) {
    let row = draft.rows[random.place(draft.rows.len())].clone();
    let place = random.place(draft.rows.len() + 1);
    if draft.rows.len() == 1 || random.percent(50) {
        draft.rows.insert(place, row);
    }
    let (first, second) = (random.place(draft.rows.len()), random.place(draft.rows.len() - 1));
    let second = if second < first { second } else { second + 1 };
    draft.rows[first][0] = draft.rows[second][0].clone();
}

/// A task written twice.
pub fn same_task(random: &mut Random, draft: &mut Draft) {
    let row = draft.rows[random.place(draft.rows.len())].clone();
    draft.rows.insert(random.place(draft.rows.len() + 1), row);
}

/// A number at a limit, or one beside it.
pub fn at_limit(random: &mut Random, draft: &mut Draft) {
    const LIMITS: [[&str; 3]; 3] = [
        ["65534", "65535", "65536"],
        ["14", "15", "16"],
        ["4294967294", "4294967295", "4294967296"],
    ];
    if random.percent(40) {
        let last = *random.pick(&["62", "63", "64"]);
        return with_cards(draft, random, 0, |_, cards| {
            cards.retain(|card| card.parse().is_ok_and(|card: u32| card < 62));
            cards.push(last.to_string());
        });
    }
    let place = random.place(CARDS);
    some_row(draft, random)[place] = random.pick(&LIMITS[place]).to_string();
}

/// A number that is right but for a multiple of a word's size.
pub fn wrapped(random: &mut Random, draft: &mut Draft) {
    const WORDS: [&[u128]; 4] = [
        &[1 << 16, 1 << 32, 1 << 64],
        &[16, 1 << 8, 1 << 16, 1 << 32, 1 << 64],
        &[1 << 32, 1 << 33, 1 << 64],
        &[64, 1 << 8, 1 << 16, 1 << 32, 1 << 64],
    ];
    with_number(draft, random, |random, place, number| {
        (number.parse::<u128>().unwrap_or(0) + random.pick(WORDS[place])).to_string()
    });
}

/// Zeros before a number.
pub fn leading_zero(random: &mut Random, draft: &mut Draft) {
    with_number(draft, random, |random, _, number| {
        format!("{}{number}", random.pick(&["0", "00"]))
    });
}

/// A sign, a point or a letter in a number.
pub fn not_a_number(random: &mut Random, draft: &mut Draft) {
    with_number(draft, random, |random, _, number| match random.below(6) {
        0 => format!("+{number}"),
        1 => format!("-{number}"),
        2 => format!("{number}.0"),
        3 => format!("0x{number}"),
        4 => format!("{number}x"),
        _ => format!("{number}-"),
    });
}

/// A number of many digits.
pub fn too_many_digits(random: &mut Random, draft: &mut Draft) {
    with_number(draft, random, |random, _, number| {
        let digits = *random.pick(&[11, 20, 40, 900]);
        format!("1{number}{}", "0".repeat(digits))
    });
}

/// A dash for a number, or nothing for any field.
pub fn dash_or_nothing(random: &mut Random, draft: &mut Draft) {
    let (place, field) = some_field(draft, random);
    *field = if place < CARDS && random.percent(50) { "-".to_string() } else { String::new() };
}

/// One digit of a number another.
pub fn other_digit(random: &mut Random, draft: &mut Draft) {
    with_number(draft, random, |random, _, number| {
        let mut digits = number.as_bytes().to_vec();
        let place = random.place(digits.len());
        digits[place] = b'0' + random.below(10) as u8;
        String::from_utf8_lossy(&digits).into_owned()
    });
}

/// Two values of a task in each other's place.
pub fn values_exchanged(random: &mut Random, draft: &mut Draft) {
    let (first, second) = (random.place(4), random.place(4));
    some_row(draft, random).swap(first, second);
}

/// Two cards in each other's place.
pub fn falling_cards(random: &mut Random, draft: &mut Draft) {
    with_cards(draft, random, 2, |random, cards| {
        let second = 1 + random.place(cards.len() - 1);
        cards.swap(random.place(second), second);
    });
}

/// A card twice, side by side or not.
pub fn equal_cards(random: &mut Random, draft: &mut Draft) {
    with_cards(draft, random, 1, |random, cards| {
        let card = cards[random.place(cards.len())].clone();
        cards.insert(random.place(cards.len() + 1), card);
    });
}

/// A card put in or taken away, where the list may still rise.
pub fn other_cards(random: &mut Random, draft: &mut Draft) {
    with_cards(draft, random, 1, |random, cards| {
        let place = random.place(cards.len());
        if cards.len() > 1 && random.percent(50) {
            cards.remove(place);
        } else {
            let card = cards[place].parse().unwrap_or(0) + random.below(4);
            cards.insert(place + random.place(2), card.to_string());
        }
    });
}

/// An item of the list empty, or a comma alone.
pub fn extra_comma(random: &mut Random, draft: &mut Draft) {
    let least = random.place(3);
    with_cards(draft, random, least, |random, cards| {
        if cards.is_empty() {
            cards.push(String::new());
        }
        cards.insert(random.place(cards.len() + 1), String::new());
    });
}

/// A dash in the list.
pub fn dash_in_cards(random: &mut Random, draft: &mut Draft) {
    with_cards(draft, random, 1, |random, cards| {
        cards.insert(random.place(cards.len() + 1), "-".to_string());
    });
}

/// A space in the list, or something else for its comma.
pub fn other_comma(random: &mut Random, draft: &mut Draft) {
    with_cards(draft, random, 2, |random, cards| {
        let place = 1 + random.place(cards.len() - 1);
        let between = *random.pick(&[", ", " ", " ,", ";", ".", "\t"]);
        let card = cards.remove(place);
        cards[place - 1] += &format!("{between}{card}");
    });
}

/// About as many tasks as fit.
pub fn about_full(random: &mut Random, draft: &mut Draft) {
    let count = *random.pick(&[31, 32, 32, 33, 33, 34, 40]);
    for number in 0..count {
        if draft.rows.len() < count && draft.rows.iter().all(|row| row[0] != number.to_string()) {
            let mut row = draft.rows[0].clone();
            row[0] = number.to_string();
            draft.rows.push(row);
        }
    }
    draft.rows.truncate(count);
}

/// Few lines of fields at and about their limits.
pub fn any_fields(random: &mut Random, draft: &mut Draft) {
    const FIELDS: [&[&str]; 4] = [
        &["0", "1", "2", "3", "65535", "65536"],
        &["0", "1", "10", "14", "15", "16"],
        &["0", "1", "9", "10", "4294967295", "4294967296"],
        &["-", "0", "63", "64", "0,1", "0,63", "62,63", "1,0"],
    ];
    let count = 1 + random.place(4);
    draft.rows = (0..count).map(|_| FIELDS.map(|fields| random.pick(fields).to_string())).collect();
}
