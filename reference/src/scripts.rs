//! Scripts by seed, as bytes: contended, refused, malformed in every way that
//! document 01 names, damaged in any way, long, in every order of names.

use crate::call::Call;
use crate::contended::Contention;
use crate::machine::Machine;
use crate::random::Random;
use crate::script::{print_call, MAX_LINES};

pub(crate) mod spoil;

/// The four names.
const NAMES: [&str; 4] = ["call", "core", "card", "value"];

/// One script in so many has lines up to the last that is read, or one more.
pub const LONGEST_ONE_IN: u32 = 2_000;

/// Spoiled lines have at most so many bytes,
const LONGEST_LINE: usize = 200_000;

/// and fewer in most quick scripts.
const QUICK_LINE: usize = 300;

/// So many calls, with names and setup 16 lines, are few.
const FEW_CALLS: usize = 14;

/// The 24 orders of the names, each as places in the order call, core, card,
/// value.
pub fn orders() -> Vec<[usize; 4]> {
    let mut orders = Vec::new();
    for code in 0..256 {
        let order = [code / 64, code / 16 % 4, code / 4 % 4, code % 4];
        if (0..4).all(|name| order.contains(&name)) {
            orders.push(order);
        }
    }
    orders
}

/// The fields in this order, one space between.
pub fn arrange(order: [usize; 4], fields: &[String; 4]) -> Vec<u8> {
    order.map(|place| fields[place].as_str()).join(" ").into_bytes()
}

/// The names line for this order.
pub fn names_line(order: [usize; 4]) -> Vec<u8> {
    arrange(order, &NAMES.map(str::to_string))
}

/// The script of this seed.
pub fn script(seed: u64) -> Vec<u8> {
    let mut random = Random::new(seed);
    if random.below(LONGEST_ONE_IN) == 0 {
        return longest(&mut random);
    }
    let order = *random.pick(&orders());
    let mut lines = vec![names_line(order)];
    match random.below(20) {
        0 => return few_bytes(&mut random),
        1 => lines[0] = spoil::bad_names(&mut random, &lines[0]),
        _ => {}
    }
    let calls = match random.below(10) {
        0 => few_calls(&mut random),
        _ => (0..1 + random.below(3)).flat_map(|_| body(&mut random)).collect(),
    };
    lines.extend(calls.into_iter().map(|call| arrange(order, &print_call(call))));
    if random.percent(50) {
        let share = *random.pick(&[2, 10, 50]);
        spoil::some_lines(&mut random, share, LONGEST_LINE, &mut lines);
    }
    join(&mut random, &lines)
}

/// The script of this seed, quickly run: most have few lines, one in 300 has
/// thousands, up to 20,000, and about one in five is made with fewer than 20.
pub fn quick_script(seed: u64) -> Vec<u8> {
    let mut random = Random::new(seed);
    let order = *random.pick(&orders());
    let mut lines = vec![names_line(order)];
    match random.below(40) {
        0 => return few_bytes(&mut random),
        1 => return spoil::garbage(&mut random, &lines[0]),
        2 => lines[0] = spoil::bad_names(&mut random, &lines[0]),
        _ => {}
    }
    let calls = quick_calls(&mut random);
    lines.extend(calls.into_iter().map(|call| arrange(order, &print_call(call))));
    if random.percent(50) {
        let share = *random.pick(&[2, 10, 50]);
        let longest = if lines.len() < 50 && random.percent(5) { LONGEST_LINE } else { QUICK_LINE };
        spoil::some_lines(&mut random, share, longest, &mut lines);
    }
    let mut script = join(&mut random, &lines);
    if random.percent(20) {
        spoil::some_bytes(&mut random, &mut script);
    }
    script
}

/// The calls of a quick script. With names and setup the longest is 20,000
/// lines.
fn quick_calls(random: &mut Random) -> Vec<Call> {
    match random.below(300) {
        0 => {
            let length = *random.pick(&[1_998, 4_998, 9_998, 19_998]);
            contended_run(Contention::new(random.bits()), length)
        }
        1..=15 => contended(random, 1_000),
        16..=40 => (0..random.below(40)).map(|_| any_call(random)).collect(),
        41..=80 => [contended(random, 30), contended(random, 30)].concat(),
        81..=155 => few_calls(random),
        _ => contended(random, 90),
    }
}

/// Calls that belong together: a contended run or calls with any numbers.
fn body(random: &mut Random) -> Vec<Call> {
    match random.below(8) {
        0 => (0..random.below(40)).map(|_| any_call(random)).collect(),
        1 => contended(random, 3_000),
        _ => contended(random, 120),
    }
}

/// A setup and a contended run after it, of fewer calls than this.
fn contended(random: &mut Random, most: u32) -> Vec<Call> {
    let contention = Contention::new(random.bits());
    contended_run(contention, random.below(most) as usize)
}

/// Few calls, so that a script that shows a fault has few lines to choose from.
fn few_calls(random: &mut Random) -> Vec<Call> {
    let length = 1 + random.place(FEW_CALLS);
    match random.below(13) {
        0 => full_list(random, length),
        1 | 2 => struck_in_turn(random),
        3 => [small(random, length / 2), small(random, length / 2)].concat(),
        4..=6 => crowd(random),
        7 | 8 => frame(random),
        9 => shared_read(random),
        _ => small(random, length),
    }
}

/// A setup and a crowd on few cores, up to one of its commits: 9 to 26 lines
/// with the names.
fn crowd(random: &mut Random) -> Vec<Call> {
    let cores = 2 + random.below(5);
    let contention = Contention::crowd(cores, random.bits());
    contended_run(contention, (3 * cores + 1 + random.below(cores)) as usize)
}

/// A setup and a display on core 0 that reads up to ten cards, while one or two
/// others write one each, in many cases what is there. All begin, and ask to
/// commit, in any order; the display may read and ask again.
fn frame(random: &mut Random) -> Vec<Call> {
    let cores = 2 + random.below(2);
    let objects = *random.pick(&[1, 1, 2, 3, 5, 10]);
    let mut calls = vec![Call::Setup { cores, objects }];
    calls.extend((0..cores).map(|core| Call::Release { core, job: 7, deadline: 9 }));
    calls.extend(random.shuffled(cores).into_iter().map(|core| Call::Begin { core }));
    let reads = (0..objects).map(|object| Call::Read { core: 0, object });
    let writes = (1..cores).map(|core| {
        let (object, value) = (random.below(objects), random.below(2));
        Call::Write { core, object, value }
    });
    let (reads, writes): (Vec<Call>, Vec<Call>) = (reads.collect(), writes.collect());
    match random.percent(50) {
        true => calls.extend(writes.into_iter().chain(reads)),
        false => calls.extend(reads.into_iter().chain(writes)),
    }
    calls.extend(random.shuffled(cores).into_iter().map(|core| Call::Commit { core }));
    if random.percent(50) {
        calls.extend([Call::Read { core: 0, object: 0 }, Call::Commit { core: 0 }]);
    }
    calls
}

/// A setup and two or three that read card 0; most then write a card of their
/// own. All begin, and ask to commit, in any order.
fn shared_read(random: &mut Random) -> Vec<Call> {
    let cores = 2 + random.below(2);
    let mut calls = vec![Call::Setup { cores, objects: cores + 1 }];
    calls.extend((0..cores).map(|core| Call::Release { core, job: 7, deadline: 9 }));
    calls.extend(random.shuffled(cores).into_iter().map(|core| Call::Begin { core }));
    calls.extend((0..cores).map(|core| Call::Read { core, object: 0 }));
    for core in (0..cores).filter(|_| random.percent(80)) {
        calls.push(Call::Write { core, object: core + 1, value: 5 });
    }
    calls.extend(random.shuffled(cores).into_iter().map(|core| Call::Commit { core }));
    calls
}

/// A setup and a contended run of so many calls on a small machine.
fn small(random: &mut Random, length: usize) -> Vec<Call> {
    contended_run(Contention::small(random.bits()), length)
}

/// A setup and jobs, until the list of a core is full.
fn full_list(random: &mut Random, length: usize) -> Vec<Call> {
    let mut calls = vec![Call::Setup { cores: 1, objects: 1 }];
    calls.extend((0..length).map(|_| match random.below(12) {
        0 => Call::Begin { core: 0 },
        1 => Call::Finish { core: 0 },
        2 => Call::GiveUp { core: 0 },
        _ => Call::Release { core: 0, job: random.below(9) as u16, deadline: random.below(9) },
    }));
    calls
}

/// A setup and a late transaction that one or two earlier ones set back, each
/// with its commit; a core that has committed may come again, and the late one
/// may ask to commit before, and read again after. In half of the cases there is
/// a call more at any place.
fn struck_in_turn(random: &mut Random) -> Vec<Call> {
    let late = 1 + random.below(2);
    let mut calls = vec![Call::Setup { cores: late + 1, objects: 1 }];
    for core in 0..=late {
        calls.extend([Call::Release { core, job: 7, deadline: 9 }, Call::Begin { core }]);
    }
    for core in 0..late {
        let value = 1 + random.below(9);
        let (write, commit) = (Call::Write { core, object: 0, value }, Call::Commit { core });
        let touch = match random.below(2) {
            0 => Call::Read { core: late, object: 0 },
            _ => Call::Write { core: late, object: 0, value },
        };
        calls.extend([write, touch]);
        calls.extend(random.percent(30).then_some(Call::Commit { core: late }));
        calls.push(commit);
        if late == 1 && random.percent(50) {
            calls.extend([Call::Begin { core }, write, commit]);
        }
        calls.push(touch);
    }
    calls.extend(random.percent(40).then_some(Call::Read { core: late, object: 0 }));
    calls.push(Call::Commit { core: late });
    if random.percent(50) {
        let more = one_more(random, late);
        calls.insert(random.place(calls.len() + 1), more);
    }
    calls
}

/// A call that may come at any place of a run with this late core.
fn one_more(random: &mut Random, late: u32) -> Call {
    let core = random.below(late + 1);
    match random.below(5) {
        0 => Call::Begin { core },
        1 => Call::Commit { core },
        2 => Call::GiveUp { core },
        _ => Call::Read { core: late, object: random.below(2) },
    }
}

/// A setup and a contended run of so many calls.
fn contended_run(mut contention: Contention, length: usize) -> Vec<Call> {
    let mut calls = vec![Call::Setup { cores: contention.cores, objects: contention.objects }];
    let run = contention.run(&mut Machine::blank(), length);
    calls.extend(run.steps.into_iter().map(|(call, _)| call));
    calls
}

/// Any of the eight calls with numbers at and around the limits.
fn any_call(random: &mut Random) -> Call {
    const CORES: [u32; 8] = [0, 0, 1, 15, 16, 17, 65_536, u32::MAX];
    const OBJECTS: [u32; 9] = [0, 0, 1, 63, 64, 65, 65_535, 65_536, u32::MAX];
    const VALUES: [u32; 6] = [0, 1, 9, 10, u32::MAX - 1, u32::MAX];
    let core = *random.pick(&CORES);
    let object = *random.pick(&OBJECTS);
    let value = *random.pick(&VALUES);
    match random.below(8) {
        0 => Call::Setup { cores: core, objects: object },
        1 => Call::Release {
            core,
            job: *random.pick(&[0, 1, 9, 10, 65_534, 65_535]),
            deadline: value,
        },
        2 => Call::Begin { core },
        3 => Call::Read { core, object },
        4 => Call::Write { core, object, value },
        5 => Call::Commit { core },
        6 => Call::GiveUp { core },
        _ => Call::Finish { core },
    }
}

/// Inputs of almost nothing.
fn few_bytes(random: &mut Random) -> Vec<u8> {
    let names = names_line(*random.pick(&orders()));
    let ended = [names.as_slice(), b"\n"].concat();
    let inputs: [&[u8]; 7] = [b"", b"\n", b"\n\n", b"\r\n", b"\0", &names, &ended];
    random.pick(&inputs).to_vec()
}

/// A script that ends just before, at or just after the last line read. Its
/// last line is empty, or a call, with or without a newline.
fn longest(random: &mut Random) -> Vec<u8> {
    let mut script = b"call core card value\nsetup 1 1 -\n".to_vec();
    let lines = MAX_LINES as usize - 1 + random.place(3);
    script.resize(script.len() + lines - 3, b'\n');
    script.extend_from_slice(random.pick::<&[u8]>(&[b"\n", b"begin 0 - -", b"begin 0 - -\n"]));
    script
}

/// Lines with newlines between, the last one with or without.
fn join(random: &mut Random, lines: &[Vec<u8>]) -> Vec<u8> {
    let mut script = lines.join(&b'\n');
    if random.percent(70) {
        script.push(b'\n');
    }
    script
}
