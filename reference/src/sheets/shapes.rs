//! The tasks of a sheet, by the shape of its groups.

use crate::random::Random;
use crate::set::{only, Set};
use crate::sheet::{read, Task, MAX_TASKS, SHIPPED};

/// The objects of so many tasks.
type Shape = fn(&mut Random, usize) -> Vec<Set>;

/// Shapes of groups, each with its name.
pub const SHAPES: &[(&str, Shape)] = &[
    ("no objects", |_, count| vec![0; count]),
    ("everyone alone", alone),
    ("one group by one object", |random, count| {
        let common = only(random.place(64));
        alone(random, count).into_iter().map(|objects| objects | common).collect()
    }),
    ("a chain", |random, count| {
        let links = (1..count).map(|second| (second - 1, second)).collect();
        anywhere(random, count, links)
    }),
    ("a ring", |random, count| {
        let links = (0..count).map(|second| ((second + count - 1) % count, second)).collect();
        anywhere(random, count, links)
    }),
    ("a star", |random, count| {
        let links = (1..count).map(|leaf| (0, leaf)).collect();
        anywhere(random, count, links)
    }),
    ("a tree", |random, count| {
        let links = (1..count).map(|leaf| (random.place(leaf), leaf)).collect();
        anywhere(random, count, links)
    }),
    ("pairs", |random, count| {
        let links = (1..count).step_by(2).map(|second| (second - 1, second)).collect();
        anywhere(random, count, links)
    }),
    ("chains of several lengths", |random, count| {
        let links = (1..count).filter(|_| random.percent(75));
        let links = links.map(|second| (second - 1, second)).collect();
        anywhere(random, count, links)
    }),
    ("two groups that one task joins", joined_late),
    ("few objects", |random, count| {
        let kinds = 1 + random.below(2 * count as u32);
        (0..count).map(|_| some(random, kinds.min(64), 2)).collect()
    }),
    ("many objects", |random, count| (0..count).map(|_| random.bits()).collect()),
    ("all objects in some tasks", |random, count| {
        (0..count)
            .map(|_| if random.percent(40) { Set::MAX } else { some(random, 64, 3) })
            .collect()
    }),
];

/// The tasks of a sheet, and the name of their shape.
pub fn tasks(random: &mut Random) -> (&'static str, Vec<Task>) {
    match random.below(60) {
        0 => return ("the shipped sheet", read(SHIPPED).expect("it is a sheet")),
        1 => return ("all zeros", vec![Task { number: 0, core: 0, deadline: 0, objects: 0 }]),
        2 => return ("the longest sheet", longest()),
        _ => {}
    }
    let (name, shape) = *random.pick(SHAPES);
    let count = how_many(random);
    let objects = shape(random, count);
    let (numbers, deadlines) = (numbers(random, count), deadlines(random, count));
    let fields = numbers.into_iter().zip(deadlines).zip(objects);
    let tasks = fields.map(|((number, deadline), objects)| Task {
        number,
        core: random.below(16),
        deadline,
        objects,
    });
    (name, tasks.collect())
}

/// Mostly few tasks, sometimes as many as fit.
fn how_many(random: &mut Random) -> usize {
    match random.below(10) {
        0..=5 => 1 + random.place(6),
        6..=7 => 1 + random.place(12),
        8 => 1 + random.place(MAX_TASKS),
        _ => MAX_TASKS,
    }
}

/// A sheet of as many bytes as one can have.
fn longest() -> Vec<Task> {
    let task = |place: u16| Task {
        number: u16::MAX - place,
        core: 15,
        deadline: u32::MAX - u32::from(place),
        objects: Set::MAX,
    };
    (0..MAX_TASKS as u16).map(task).collect()
}

/// Up to so many of the first objects.
fn some(random: &mut Random, kinds: u32, most: u32) -> Set {
    (0..random.below(most + 1)).fold(0, |set, _| set | only(random.below(kinds) as usize))
}

/// Objects that no two tasks share.
fn alone(random: &mut Random, count: usize) -> Vec<Set> {
    let share = *random.pick(&[10, 50, 100]);
    let mut objects = vec![0; count];
    for object in 0..64 {
        if random.percent(share) {
            objects[random.place(count)] |= only(object);
        }
    }
    objects
}

/// The places of so many tasks: rising, falling or in any order.
fn places(random: &mut Random, count: usize) -> Vec<usize> {
    match random.below(4) {
        0 => (0..count).collect(),
        1 => (0..count).rev().collect(),
        _ => random.shuffled(count as u32).into_iter().map(|place| place as usize).collect(),
    }
}

/// Linked tasks, rising, falling or in any order.
fn anywhere(random: &mut Random, count: usize, links: Vec<(usize, usize)>) -> Vec<Set> {
    let places = places(random, count);
    linked(random, places, links)
}

/// Tasks at these places, of which each two that are linked share an object that
/// no others use; some have objects of their own.
fn linked(random: &mut Random, places: Vec<usize>, links: Vec<(usize, usize)>) -> Vec<Set> {
    let mut free = random.shuffled(64).into_iter().map(|object| only(object as usize));
    let mut objects = vec![0; places.len()];
    for (first, second) in links {
        let link = free.next().expect("fewer links than objects");
        objects[places[first]] |= link;
        objects[places[second]] |= link;
    }
    if random.percent(40) {
        let own = random.place(8);
        free.take(own).for_each(|object| objects[random.place(places.len())] |= object);
    }
    objects
}

/// Two chains and a last task that joins them, if there are so many tasks.
fn joined_late(random: &mut Random, count: usize) -> Vec<Set> {
    let last = count - 1;
    let (mut places, half) = (places(random, last), last / 2);
    places.push(last);
    let mut links: Vec<(usize, usize)> = (1..last).map(|second| (second - 1, second)).collect();
    if half > 0 {
        links[half - 1] = (random.place(half), last);
        links.push((half + random.place(last - half), last));
    }
    linked(random, places, links)
}

/// Numbers that differ: few and near each other, at the other end, rising, or
/// anywhere.
fn numbers(random: &mut Random, count: usize) -> Vec<u16> {
    let near = random.shuffled(count as u32 + 4).into_iter().take(count);
    let (start, step) = (random.bits() as u16, random.bits() as u16 | 1);
    match random.below(4) {
        0 => near.map(|number| number as u16).collect(),
        1 => near.map(|number| u16::MAX - number as u16).collect(),
        2 => (0..count as u16).collect(),
        _ => (0..count as u16).map(|place| start.wrapping_add(place.wrapping_mul(step))).collect(),
    }
}

/// Deadlines: all different, few different, equal, at the ends, rising, falling.
fn deadlines(random: &mut Random, count: usize) -> Vec<u32> {
    const ENDS: [u32; 8] = [0, 1, 9, 10, 1 << 31, (1 << 31) - 1, u32::MAX - 1, u32::MAX];
    let step = 1 + random.below(1 << 20);
    let few = 1 + random.below(4);
    match random.below(7) {
        0 => (0..count).map(|_| random.bits() as u32).collect(),
        1 => (0..count).map(|_| random.below(few)).collect(),
        2 => (0..count).map(|_| random.below(count as u32)).collect(),
        3 => vec![random.bits() as u32; count],
        4 => (0..count).map(|_| *random.pick(&ENDS)).collect(),
        5 => (0..count as u32).map(|place| place * step).collect(),
        _ => (0..count as u32).map(|place| u32::MAX - place * step).collect(),
    }
}
