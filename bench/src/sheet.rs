//! A sheet as a value, and its reading from a text that is known to be well-formed.

/// 0 is nil, 1 to 6 are variables, 7 and 8 ghosts.
pub type Name = u8;

/// Rows are counted from 1.
pub type RowNumber = u8;

pub const NAMES: usize = 9;

const LINE: usize = 29;
const COLUMN: usize = 4;

#[derive(Clone, Copy, Debug, PartialEq, Eq)]
pub enum Atom {
    Eq(Name, Name),
    Neq(Name, Name),
    Next(Name, Name),
    Lseg(Name, Name),
}

#[derive(Clone, Debug, PartialEq, Eq)]
pub struct Call {
    pub into: Name,
    pub routine: u8,
    pub arguments: [Name; 2],
    pub ghosts: [Name; 2],
    pub frame: Vec<Atom>,
}

#[derive(Clone, Debug, PartialEq, Eq)]
pub enum Row {
    Set { into: Name, value: Name },
    Load { into: Name, cell: Name },
    Store { cell: Name, value: Name },
    New { into: Name },
    Free { cell: Name },
    Jump { to: RowNumber },
    Branch { left: Name, right: Name, to: RowNumber },
    Cut(Vec<Atom>),
    Call(Call),
    Done,
}

/// What callers of a routine go by.
#[derive(Clone, Debug, PartialEq, Eq)]
pub struct Contract {
    pub arguments: u8,
    pub ghosts: u8,
    pub before: Vec<Atom>,
    pub after: Vec<Atom>,
}

#[derive(Clone, Debug, PartialEq, Eq)]
pub struct Routine {
    pub number: u8,
    pub variables: u8,
    pub contract: Contract,
    pub rows: Vec<Row>,
}

impl Atom {
    pub fn names(self) -> [Name; 2] {
        match self {
            Atom::Eq(e, f) | Atom::Neq(e, f) | Atom::Next(e, f) | Atom::Lseg(e, f) => [e, f],
        }
    }

    /// The atom with each name replaced, all at once.
    pub fn renamed(self, to: impl Fn(Name) -> Name) -> Atom {
        match self {
            Atom::Eq(e, f) => Atom::Eq(to(e), to(f)),
            Atom::Neq(e, f) => Atom::Neq(to(e), to(f)),
            Atom::Next(e, f) => Atom::Next(to(e), to(f)),
            Atom::Lseg(e, f) => Atom::Lseg(to(e), to(f)),
        }
    }
}

impl Routine {
    pub fn row(&self, number: RowNumber) -> &Row {
        &self.rows[number as usize - 1]
    }

    pub fn ghosts(&self) -> impl Iterator<Item = Name> {
        7..7 + self.contract.ghosts
    }
}

/// The routine that a well-formed text holds; panics at a text that is none.
pub fn read(text: &[u8]) -> Routine {
    let mut lines = text.chunks(LINE).map(columns).peekable();
    let head = lines.next().expect("a head");
    lines.next();
    let before = atoms(&mut lines);
    lines.next();
    let after = atoms(&mut lines);
    let mut rows = Vec::new();
    while let Some(line) = lines.next() {
        rows.push(row(line, &mut lines));
    }
    Routine {
        number: head[1],
        variables: head[2],
        contract: Contract { arguments: head[3], ghosts: head[4], before, after },
        rows,
    }
}

fn columns(line: &[u8]) -> [u8; 7] {
    let mut numbers = [0; 7];
    for (number, column) in numbers.iter_mut().zip(line.chunks(COLUMN)) {
        let digits = std::str::from_utf8(column).expect("digits").trim_start();
        *number = digits.parse().expect("a number");
    }
    numbers
}

fn atoms<I: Iterator<Item = [u8; 7]>>(lines: &mut std::iter::Peekable<I>) -> Vec<Atom> {
    let mut list = Vec::new();
    while let Some(line) = lines.next_if(|line| (11..=14).contains(&line[0])) {
        let (e, f) = (line[1], line[2]);
        list.push(match line[0] {
            11 => Atom::Eq(e, f),
            12 => Atom::Neq(e, f),
            13 => Atom::Next(e, f),
            _ => Atom::Lseg(e, f),
        });
    }
    list
}

fn row<I: Iterator<Item = [u8; 7]>>(line: [u8; 7], lines: &mut std::iter::Peekable<I>) -> Row {
    let [kind, a, b, c, d, e, f] = line;
    match kind {
        21 => Row::Set { into: a, value: b },
        22 => Row::Load { into: a, cell: b },
        23 => Row::Store { cell: a, value: b },
        24 => Row::New { into: a },
        25 => Row::Free { cell: a },
        26 => Row::Jump { to: a },
        27 => Row::Branch { left: a, right: b, to: c },
        28 => Row::Cut(atoms(lines)),
        29 => Row::Call(Call { into: a, routine: b, arguments: [c, d], ghosts: [e, f], frame: atoms(lines) }),
        30 => Row::Done,
        _ => panic!("no row has kind {kind}"),
    }
}

/// The text of a well-formed routine.
pub fn write(routine: &Routine) -> String {
    let contract = &routine.contract;
    let mut text = String::new();
    line(
        &mut text,
        1,
        &[routine.number, routine.variables, contract.arguments, contract.ghosts, routine.rows.len() as u8],
    );
    line(&mut text, 2, &[]);
    write_list(&mut text, &contract.before);
    line(&mut text, 3, &[]);
    write_list(&mut text, &contract.after);
    routine.rows.iter().for_each(|row| write_row(&mut text, row));
    text
}

fn line(text: &mut String, kind: u8, operands: &[u8]) {
    text.push_str(&format!("{kind:4}"));
    for at in 0..6 {
        text.push_str(&format!("{:4}", operands.get(at).unwrap_or(&0)));
    }
    text.push('\n');
}

fn write_list(text: &mut String, list: &[Atom]) {
    for atom in list {
        let kind = match atom {
            Atom::Eq(..) => 11,
            Atom::Neq(..) => 12,
            Atom::Next(..) => 13,
            Atom::Lseg(..) => 14,
        };
        line(text, kind, &atom.names());
    }
}

fn write_row(text: &mut String, row: &Row) {
    match *row {
        Row::Set { into, value } => line(text, 21, &[into, value]),
        Row::Load { into, cell } => line(text, 22, &[into, cell]),
        Row::Store { cell, value } => line(text, 23, &[cell, value]),
        Row::New { into } => line(text, 24, &[into]),
        Row::Free { cell } => line(text, 25, &[cell]),
        Row::Jump { to } => line(text, 26, &[to]),
        Row::Branch { left, right, to } => line(text, 27, &[left, right, to]),
        Row::Cut(ref list) => {
            line(text, 28, &[]);
            write_list(text, list);
        }
        Row::Call(ref call) => {
            let ([y, z], [s, t]) = (call.arguments, call.ghosts);
            line(text, 29, &[call.into, call.routine, y, z, s, t]);
            write_list(text, &call.frame);
        }
        Row::Done => line(text, 30, &[]),
    }
}
