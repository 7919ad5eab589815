//! The search against brute force on many small sheets: random ones, and the examples with random edits.
//!
//! Brute force tries small states only, so what it finds must be found by the search too. What the search finds must turn
//! up in states of a few more cells.

use plain_search::formed::well_formed;
use plain_search::piece::{Contracts, NO_CONTRACTS};
use plain_search::search::Failures;
use plain_search::sheet::{read, write, Atom, Call, Contract, Name, Routine, Row};
use plain_search::{brute, search};

/// So many addresses are tried at least, whether fewer show all or not.
const FEWEST_ADDRESSES: u8 = 4;

/// Sheets for which no state with this many addresses shows what the search found are counted as open.
const MOST_ADDRESSES: u8 = 6;

/// A sheet with all names needed has many states; such ones are tried with fewer addresses.
const MOST_STATES: u64 = 3_000_000;

struct Dice(u64);

impl Dice {
    fn roll(&mut self, below: u64) -> u64 {
        self.0 ^= self.0 << 13;
        self.0 ^= self.0 >> 7;
        self.0 ^= self.0 << 17;
        (self.0 >> 11) % below
    }

    fn pick<T: Copy>(&mut self, from: &[T]) -> T {
        from[self.roll(from.len() as u64) as usize]
    }
}

fn atom(dice: &mut Dice, names: &[Name]) -> Atom {
    let (e, f) = (dice.pick(names), dice.pick(names));
    match dice.roll(8) {
        0 => Atom::Eq(e, f),
        1 => Atom::Neq(e, f),
        2..=4 => Atom::Next(e, f),
        _ => Atom::Lseg(e, f),
    }
}

fn list(dice: &mut Dice, names: &[Name]) -> Vec<Atom> {
    (0..dice.roll(4)).map(|_| atom(dice, names)).collect()
}

fn names(variables: u8, ghosts: u8, but: Name) -> Vec<Name> {
    (0..=variables).chain(7..7 + ghosts).filter(|&name| name == 0 || name != but).collect()
}

fn row(dice: &mut Dice, of: &Routine, count: u8) -> Row {
    let (v, g) = (of.variables, of.contract.ghosts);
    let variables: Vec<Name> = (1..=v).collect();
    let values: Vec<Name> = (0..=v).collect();
    let into = dice.pick(&variables);
    let to = 1 + dice.roll(count as u64) as u8;
    match dice.roll(16) {
        0 => Row::Set { into, value: dice.pick(&values) },
        1..=3 => Row::Load { into, cell: dice.pick(&variables) },
        4..=5 => Row::Store { cell: into, value: dice.pick(&values) },
        6..=7 => Row::New { into },
        8..=9 => Row::Free { cell: into },
        10 => Row::Jump { to },
        11..=12 => Row::Branch { left: dice.pick(&values), right: dice.pick(&values), to },
        13..=14 => Row::Cut(list(dice, &names(v, g, 0))),
        _ => Row::Call(call(dice, of, into, &values)),
    }
}

/// A call of the routine itself or of one that stands beside it.
fn call(dice: &mut Dice, of: &Routine, into: Name, values: &[Name]) -> Call {
    let routine = dice.roll(3) as u8;
    let beside = beside();
    let contract = beside[routine as usize].as_ref().unwrap_or(&of.contract);
    let others = names(of.variables, of.contract.ghosts, into);
    let mut given = |count: u8, from: &[Name]| {
        let mut some = [0; 2];
        some[..count as usize].iter_mut().for_each(|name| *name = dice.pick(from));
        some
    };
    let (arguments, ghosts) = (given(contract.arguments, values), given(contract.ghosts, &others));
    Call { into, routine, arguments, ghosts, frame: list(dice, &others) }
}

/// The contracts of a routine with two arguments and of one with a ghost.
fn beside() -> Contracts {
    let mut contracts = NO_CONTRACTS;
    let apart = vec![Atom::Lseg(1, 2), Atom::Next(2, 0)];
    contracts[1] = Some(Contract { arguments: 2, ghosts: 0, before: apart, after: vec![Atom::Lseg(1, 0)] });
    let whole = vec![Atom::Eq(1, 7), Atom::Neq(1, 0), Atom::Lseg(1, 0)];
    contracts[2] =
        Some(Contract { arguments: 1, ghosts: 1, before: whole, after: vec![Atom::Lseg(1, 7), Atom::Next(7, 0)] });
    contracts
}

fn random_routine(dice: &mut Dice) -> Routine {
    loop {
        let variables = 1 + dice.roll(3) as u8;
        let arguments = dice.roll(variables.min(2) as u64 + 1) as u8;
        let ghosts = dice.roll(if variables == 3 { 2 } else { 3 }) as u8;
        let before = list(dice, &names(arguments, ghosts, 0));
        let after = list(dice, &names(1, ghosts, 0));
        let contract = Contract { arguments, ghosts, before, after };
        let mut routine = Routine { number: 0, variables, contract, rows: vec![] };
        let count = 1 + dice.roll(6) as u8;
        for _ in 1..count {
            let next = row(dice, &routine, count);
            routine.rows.push(next);
        }
        routine.rows.push(Row::Done);
        if well_formed(&routine) {
            return routine;
        }
    }
}

/// One row, atom or name changed, so that most of the sheet still makes sense.
fn edited(dice: &mut Dice, sheet: &Routine) -> Routine {
    loop {
        let mut routine = sheet.clone();
        let (v, g) = (routine.variables, routine.contract.ghosts);
        let at = dice.roll(routine.rows.len() as u64) as usize;
        let count = routine.rows.len() as u8;
        match dice.roll(8) {
            0 => routine.rows[at] = row(dice, sheet, count),
            1 if at > 0 => routine.rows.swap(at - 1, at),
            2 => edit_list(dice, &mut routine.contract.before, &names(v, g, 0)),
            3 => edit_list(dice, &mut routine.contract.after, &names(1, g, 0)),
            4 => routine.rows[at] = Row::Set { into: 1, value: 1 },
            _ => match &mut routine.rows[at] {
                Row::Cut(list) | Row::Call(Call { frame: list, .. }) => edit_list(dice, list, &names(v, g, 0)),
                Row::Set { value, .. } | Row::Store { value, .. } => *value = dice.roll(v as u64 + 1) as u8,
                Row::Load { cell, .. } | Row::Free { cell } => *cell = 1 + dice.roll(v as u64) as u8,
                Row::New { into } => *into = 1 + dice.roll(v as u64) as u8,
                Row::Branch { left, .. } => *left = dice.roll(v as u64 + 1) as u8,
                Row::Jump { to } => *to = 1 + dice.roll(count as u64) as u8,
                Row::Done => continue,
            },
        }
        if well_formed(&routine) && routine != *sheet {
            return routine;
        }
    }
}

fn edit_list(dice: &mut Dice, list: &mut Vec<Atom>, names: &[Name]) {
    let at = dice.roll(list.len() as u64 + 1) as usize;
    let new = atom(dice, names);
    match list.get_mut(at) {
        Some(old) if dice.roll(3) > 0 => *old = new,
        Some(_) => drop(list.remove(at)),
        None => list.push(new),
    }
}

fn within(some: Failures, all: Failures) -> bool {
    some.dead_cell & !all.dead_cell == 0 && some.false_list & !all.false_list == 0
}

fn states(routine: &Routine, addresses: u8) -> u64 {
    (addresses as u64 + 1).pow((routine.variables + routine.contract.ghosts) as u32)
}

#[derive(Default, Debug)]
struct Tally {
    sheets: u64,
    taken: u64,
    dead_cell: u64,
    false_list: u64,
    /// The very same rows fail by brute force.
    equal: u64,
    open: u64,
}

fn compare(tally: &mut Tally, routine: &Routine) {
    let contracts = beside();
    let report = search::check(routine, &contracts);
    tally.sheets += 1;
    match report.verdict.number {
        0 => tally.taken += 1,
        131 => tally.dead_cell += 1,
        _ => tally.false_list += 1,
    }
    for addresses in FEWEST_ADDRESSES..=MOST_ADDRESSES {
        if addresses > FEWEST_ADDRESSES && states(routine, addresses) > MOST_STATES {
            break;
        }
        let tried = brute::failures(routine, &contracts, addresses);
        assert!(
            within(tried, report.failures),
            "brute force finds more: {tried:?}, {:?}\n{}",
            report.failures,
            write(routine)
        );
        if tried == report.failures {
            tally.equal += 1;
            return;
        }
    }
    tally.open += 1;
    println!("open: {:?}\n{}", report.failures, write(routine));
}

fn amount(otherwise: u64) -> u64 {
    std::env::var("SHEETS").map_or(otherwise, |number| number.parse().expect("a number of sheets"))
}

#[test]
fn random_sheets() {
    let mut dice = Dice(0x9E37_79B9_7F4A_7C15);
    let mut tally = Tally::default();
    for _ in 0..amount(4_000) {
        compare(&mut tally, &random_routine(&mut dice));
    }
    println!("random sheets: {tally:?}");
    assert!(tally.open * 1_000 <= tally.sheets, "{tally:?}");
}

#[test]
fn edited_examples() {
    let mut dice = Dice(0x2545_F491_4F6C_DD1D);
    let verdicts = std::fs::read_to_string("../examples/VERDICTS.txt").unwrap();
    let mut tally = Tally::default();
    for line in verdicts.lines() {
        let name = line.split(' ').next().unwrap();
        let sheet = read(&std::fs::read(format!("../examples/{name}.sheet")).unwrap());
        for _ in 0..amount(2_000) / 50 {
            compare(&mut tally, &edited(&mut dice, &sheet));
        }
    }
    println!("edited examples: {tally:?}");
    assert!(tally.open * 100 <= tally.sheets, "{tally:?}");
}
