//! The pieces of a routine: what opens and closes each, and the names it needs.

use crate::sheet::{Atom, Call, Contract, Name, Routine, Row, RowNumber};

/// The contracts that calls go by, one for each position of a shelf.
pub type Contracts = [Option<Contract>; 16];

pub const NO_CONTRACTS: Contracts = [const { None }; 16];

pub struct Piece {
    pub first: RowNumber,
    pub opening: Vec<Atom>,
    /// The names whose values the opening leaves free; all others are nil.
    pub names: Vec<Name>,
}

/// The lowest row whose call names no contract, or gives something for an argument or ghost that the routine lacks.
pub fn unfit_call(routine: &Routine, contracts: &Contracts) -> Option<RowNumber> {
    let numbered = (1..).zip(&routine.rows);
    numbered
        .filter_map(|(number, row)| call_of(row).map(|call| (number, call)))
        .find(|(_, call)| !fits(call, callee(routine, contracts, call.routine)))
        .map(|(number, _)| number)
}

fn call_of(row: &Row) -> Option<&Call> {
    match row {
        Row::Call(call) => Some(call),
        _ => None,
    }
}

fn fits(call: &Call, contract: Option<&Contract>) -> bool {
    let all_nil = |names: &[Name]| names.iter().all(|&name| name == 0);
    contract.is_some_and(|contract| {
        all_nil(&call.arguments[contract.arguments as usize..]) && all_nil(&call.ghosts[contract.ghosts as usize..])
    })
}

/// A call of the own number goes by the routine's own contract, whatever stands at that position.
fn callee<'a>(routine: &'a Routine, contracts: &'a Contracts, number: u8) -> Option<&'a Contract> {
    if number == routine.number {
        Some(&routine.contract)
    } else {
        contracts[number as usize].as_ref()
    }
}

/// The lists that must hold where a piece closes, by row from row 1 on; empty for rows that close none.
pub fn closings(routine: &Routine, contracts: &Contracts) -> Vec<Vec<Atom>> {
    routine.rows.iter().map(|row| closing(routine, contracts, row)).collect()
}

fn closing(routine: &Routine, contracts: &Contracts, row: &Row) -> Vec<Atom> {
    match row {
        Row::Cut(list) => list.clone(),
        Row::Done => routine.contract.after.clone(),
        Row::Call(call) => {
            let before = &callee(routine, contracts, call.routine).expect("a callee").before;
            let entry = |name| match name {
                1 | 2 => call.arguments[name as usize - 1],
                7 | 8 => call.ghosts[name as usize - 7],
                other => other,
            };
            together(before, entry, &call.frame)
        }
        _ => Vec::new(),
    }
}

/// The list that opens the piece behind a row, if one opens there.
fn opening(routine: &Routine, contracts: &Contracts, row: &Row) -> Option<Vec<Atom>> {
    match row {
        Row::Cut(list) => Some(list.clone()),
        Row::Call(call) => {
            let after = &callee(routine, contracts, call.routine).expect("a callee").after;
            let back = |name| match name {
                1 => call.into,
                7 | 8 => call.ghosts[name as usize - 7],
                other => other,
            };
            Some(together(after, back, &call.frame))
        }
        _ => None,
    }
}

fn together(list: &[Atom], to: impl Fn(Name) -> Name, frame: &[Atom]) -> Vec<Atom> {
    list.iter().map(|atom| atom.renamed(&to)).chain(frame.iter().copied()).collect()
}

/// All pieces, with every name that their opening leaves free.
pub fn pieces(routine: &Routine, contracts: &Contracts) -> Vec<Piece> {
    let arguments = 1..=routine.contract.arguments;
    let variables = 1..=routine.variables;
    let start = Piece {
        first: 1,
        opening: routine.contract.before.clone(),
        names: arguments.chain(routine.ghosts()).collect(),
    };
    let behind = (2..).zip(&routine.rows).filter_map(|(first, row)| {
        let names = variables.clone().chain(routine.ghosts()).collect();
        opening(routine, contracts, row).map(|opening| Piece { first, opening, names })
    });
    std::iter::once(start).chain(behind).collect()
}

/// A set of names, one bit for each.
type NameSet = u16;

fn one(name: Name) -> NameSet {
    1 << name
}

fn named(list: &[Atom]) -> NameSet {
    list.iter().flat_map(|atom| atom.names()).fold(0, |set, name| set | one(name))
}

/// For each row the names that some way from it reads before it writes them, or that a list closing such a way names.
/// One pass backwards is enough: inside a piece ways only go forward, and what closes a piece stands in `closings`.
pub fn needed_names(routine: &Routine, closings: &[Vec<Atom>]) -> Vec<NameSet> {
    let mut needed: Vec<NameSet> = closings.iter().map(|list| named(list)).collect();
    for at in (0..routine.rows.len()).rev() {
        let behind = needed.get(at + 1).copied().unwrap_or(0);
        let to = |row: RowNumber| needed[row as usize - 1];
        needed[at] = match routine.rows[at] {
            Row::Set { into, value } => behind & !one(into) | one(value),
            Row::Load { into, cell } => behind & !one(into) | one(cell),
            Row::Store { cell, value } => behind | one(cell) | one(value),
            Row::New { into } => behind & !one(into),
            Row::Free { cell } => behind | one(cell),
            Row::Jump { to: row } => to(row),
            Row::Branch { left, right, to: row } => behind | to(row) | one(left) | one(right),
            Row::Cut(_) | Row::Call(_) | Row::Done => needed[at],
        };
    }
    needed
}

/// The piece with only those names free that it needs. The others may be nil without any row failing otherwise.
pub fn with_needed_names(mut piece: Piece, needed: &[NameSet]) -> Piece {
    let wanted = named(&piece.opening) | needed[piece.first as usize - 1];
    piece.names.retain(|&name| wanted & one(name) != 0);
    piece
}
