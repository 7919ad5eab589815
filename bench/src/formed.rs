//! Whether a routine is one that a sheet can hold: counts, classes of operands, targets and weight.

use crate::sheet::{Atom, Name, Routine, Row};

const MOST_ROWS: usize = 40;
const MOST_ATOMS: usize = 8;
const MOST_ATOMS_IN_ALL: usize = 80;
const MOST_WEIGHT: u32 = 8;

pub fn well_formed(routine: &Routine) -> bool {
    counts(routine) && lists(routine) && routine.rows.iter().all(|row| operands(routine, row)) && flow(routine)
}

fn counts(routine: &Routine) -> bool {
    let contract = &routine.contract;
    let lists = || [&contract.before, &contract.after].into_iter().chain(routine.rows.iter().filter_map(list));
    routine.number <= 15
        && (1..=6).contains(&routine.variables)
        && contract.arguments <= routine.variables.min(2)
        && contract.ghosts <= 2
        && (1..=MOST_ROWS).contains(&routine.rows.len())
        && lists().all(|list| list.len() <= MOST_ATOMS)
        && lists().map(|list| list.len()).sum::<usize>() <= MOST_ATOMS_IN_ALL
}

fn list(row: &Row) -> Option<&Vec<Atom>> {
    match row {
        Row::Cut(list) => Some(list),
        Row::Call(call) => Some(&call.frame),
        _ => None,
    }
}

fn is_ghost(routine: &Routine, name: Name) -> bool {
    (7..7 + routine.contract.ghosts).contains(&name)
}

fn is_variable(routine: &Routine, name: Name) -> bool {
    (1..=routine.variables).contains(&name)
}

fn name_only(list: &[Atom], may: impl Fn(Name) -> bool) -> bool {
    list.iter().flat_map(|atom| atom.names()).all(|name| name == 0 || may(name))
}

fn lists(routine: &Routine) -> bool {
    let contract = &routine.contract;
    name_only(&contract.before, |name| (1..=contract.arguments).contains(&name) || is_ghost(routine, name))
        && name_only(&contract.after, |name| name == 1 || is_ghost(routine, name))
}

fn operands(routine: &Routine, row: &Row) -> bool {
    let variable = |name| is_variable(routine, name);
    let value = |name| name == 0 || variable(name);
    let named = |name| value(name) || is_ghost(routine, name);
    match *row {
        Row::Set { into, value: e } | Row::Store { cell: into, value: e } => variable(into) && value(e),
        Row::Load { into, cell } => variable(into) && variable(cell),
        Row::New { into } | Row::Free { cell: into } => variable(into),
        Row::Jump { .. } | Row::Done => true,
        Row::Branch { left, right, .. } => value(left) && value(right),
        Row::Cut(ref list) => name_only(list, named),
        Row::Call(ref call) => {
            variable(call.into)
                && call.routine <= 15
                && call.arguments.iter().all(|&name| value(name))
                && call.ghosts.iter().all(|&name| name != call.into && named(name))
                && name_only(&call.frame, |name| name != call.into && named(name))
        }
    }
}

fn flow(routine: &Routine) -> bool {
    let ends = matches!(routine.rows.last(), Some(Row::Jump { .. } | Row::Done));
    ends && (0..routine.rows.len()).all(|at| target(routine, at))
        && weights(routine).iter().all(|&weight| weight <= MOST_WEIGHT)
}

fn target(routine: &Routine, at: usize) -> bool {
    match routine.rows[at] {
        Row::Jump { to } | Row::Branch { to, .. } => {
            let to = to as usize;
            (1..=routine.rows.len()).contains(&to) && (to > at + 1 || matches!(routine.rows[to - 1], Row::Cut(_)))
        }
        _ => true,
    }
}

/// The weight of each piece: the most rows of kinds 22 to 25 on a way from its first row to where it closes.
fn weights(routine: &Routine) -> Vec<u32> {
    let mut from = vec![0; routine.rows.len() + 1];
    for at in (0..routine.rows.len()).rev() {
        // A target that is not later is a cut, and from there a way has no weight.
        let to = |row: u8| if row as usize > at + 1 { from[row as usize - 1] } else { 0 };
        from[at] = match routine.rows[at] {
            Row::Set { .. } => from[at + 1],
            Row::Load { .. } | Row::Store { .. } | Row::New { .. } | Row::Free { .. } => from[at + 1] + 1,
            Row::Jump { to: row } => to(row),
            Row::Branch { to: row, .. } => from[at + 1].max(to(row)),
            Row::Cut(_) | Row::Call(_) | Row::Done => 0,
        };
    }
    let behind = (0..routine.rows.len()).filter(|&at| list(&routine.rows[at]).is_some()).map(|at| from[at + 1]);
    std::iter::once(from[0]).chain(behind).collect()
}
