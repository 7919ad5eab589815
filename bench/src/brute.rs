//! A check of a routine by trying every small state, straight from what atoms, rows and pieces mean. It shares nothing
//! with the search but the sheet and the form of the answer.

use crate::piece::Contracts;
use crate::search::Failures;
use crate::sheet::{Atom, Call, Contract, Name, Routine, Row, RowNumber, NAMES};

/// 0 is nil, all others are addresses.
pub type Value = u8;

/// Room for nil, the addresses tried and eight new ones, since no piece weighs more.
const ROOM: usize = 24;

/// The link of each address, or nothing where it is not live.
pub type Heap = [Option<Value>; ROOM];

pub const EMPTY: Heap = [None; ROOM];

/// The value of each name.
pub type Env = [Value; NAMES];

/// An atom with values in the place of its names.
#[derive(Clone, Copy, Debug)]
pub enum Fact {
    Equal(Value, Value),
    Unequal(Value, Value),
    Cell(Value, Value),
    Segment(Value, Value),
}

pub fn fact(atom: Atom, env: &Env) -> Fact {
    let value = |name: Name| env[name as usize];
    match atom {
        Atom::Eq(e, f) => Fact::Equal(value(e), value(f)),
        Atom::Neq(e, f) => Fact::Unequal(value(e), value(f)),
        Atom::Next(e, f) => Fact::Cell(value(e), value(f)),
        Atom::Lseg(e, f) => Fact::Segment(value(e), value(f)),
    }
}

fn facts<'a>(list: &'a [Atom], env: &'a Env) -> impl Iterator<Item = Fact> + 'a {
    list.iter().map(|&atom| fact(atom, env))
}

/// Whether the facts hold of the heap: each takes its cells out of it, and none are left.
pub fn holds(facts: &[Fact], heap: &Heap) -> bool {
    let mut left = *heap;
    facts.iter().all(|&fact| take_out(fact, &mut left)) && left == EMPTY
}

fn take_out(fact: Fact, left: &mut Heap) -> bool {
    match fact {
        Fact::Equal(e, f) => e == f,
        Fact::Unequal(e, f) => e != f,
        Fact::Cell(e, f) => left[e as usize].take() == Some(f),
        Fact::Segment(e, f) if e == f => true,
        Fact::Segment(e, f) => left[e as usize].take().is_some_and(|z| take_out(Fact::Segment(z, f), left)),
    }
}

/// Shows each heap over the addresses up to `top` that, beside `heap`, the facts hold of; both together are shown.
pub fn heaps(facts: &[Fact], heap: &Heap, top: Value, show: &mut dyn FnMut(&Heap)) {
    let Some((&first, rest)) = facts.split_first() else {
        return show(heap);
    };
    let free = |e: Value| e != 0 && heap[e as usize].is_none();
    match first {
        Fact::Equal(e, f) if e != f => {}
        Fact::Unequal(e, f) if e == f => {}
        Fact::Cell(e, _) if !free(e) => {}
        Fact::Segment(e, f) if e != f && !free(e) => {}
        Fact::Cell(e, f) => heaps(rest, &with(heap, e, f), top, show),
        Fact::Segment(e, f) if e != f => {
            for z in 0..=top {
                let unfolded = [&[Fact::Segment(z, f)], rest].concat();
                heaps(&unfolded, &with(heap, e, z), top, show);
            }
        }
        _ => heaps(rest, heap, top, show),
    }
}

fn with(heap: &Heap, address: Value, link: Value) -> Heap {
    let mut wider = *heap;
    wider[address as usize] = Some(link);
    wider
}

/// The rows at which some piece fails from some state whose values are all at most `top`.
pub fn failures(routine: &Routine, contracts: &Contracts, top: Value) -> Failures {
    let mut trial = Trial { routine, contracts, top, found: Failures::default() };
    let ghosts = routine.ghosts();
    let at_start: Vec<Name> = (1..=routine.contract.arguments).chain(routine.ghosts()).collect();
    let behind: Vec<Name> = (1..=routine.variables).chain(ghosts).collect();
    trial.piece(0, &at_start);
    for (number, row) in (1..).zip(&routine.rows) {
        if matches!(row, Row::Cut(_) | Row::Call(_)) {
            trial.piece(number, &behind);
        }
    }
    trial.found
}

struct Trial<'a> {
    routine: &'a Routine,
    contracts: &'a Contracts,
    top: Value,
    found: Failures,
}

impl Trial<'_> {
    /// Tries the piece behind a row, 0 for the start, with every value for each of these names.
    fn piece(&mut self, opened_by: RowNumber, names: &[Name]) {
        let mut env = [0; NAMES];
        loop {
            let opening = self.opening(opened_by, &env);
            let mut allowed = Vec::new();
            heaps(&opening, &EMPTY, self.top, &mut |heap| allowed.push(*heap));
            for heap in allowed {
                self.run(opened_by + 1, env, heap, self.top);
            }
            let Some(&name) = names.iter().find(|&&name| env[name as usize] < self.top) else {
                return;
            };
            names.iter().take_while(|&&lower| lower != name).for_each(|&lower| env[lower as usize] = 0);
            env[name as usize] += 1;
        }
    }

    fn opening(&self, opened_by: RowNumber, env: &Env) -> Vec<Fact> {
        if opened_by == 0 {
            return facts(&self.routine.contract.before, env).collect();
        }
        match self.routine.row(opened_by) {
            Row::Cut(list) => facts(list, env).collect(),
            Row::Call(call) => {
                let inside = returned(call, env);
                facts(&self.callee(call).after, &inside).chain(facts(&call.frame, env)).collect()
            }
            _ => panic!("row {opened_by} opens no piece"),
        }
    }

    fn closing(&self, row: &Row, env: &Env) -> Vec<Fact> {
        match row {
            Row::Cut(list) => facts(list, env).collect(),
            Row::Call(call) => {
                let inside = entered(call, env);
                facts(&self.callee(call).before, &inside).chain(facts(&call.frame, env)).collect()
            }
            _ => facts(&self.routine.contract.after, env).collect(),
        }
    }

    fn callee(&self, call: &Call) -> &Contract {
        if call.routine == self.routine.number {
            &self.routine.contract
        } else {
            self.contracts[call.routine as usize].as_ref().expect("a callee")
        }
    }

    /// Goes on from a state to the end of its piece; no address above `highest` was ever named or linked to.
    fn run(&mut self, number: RowNumber, mut env: Env, mut heap: Heap, mut highest: Value) {
        let mut number = number;
        loop {
            let row = self.routine.row(number);
            let here = number;
            number += 1;
            match *row {
                Row::Set { into, value } => env[into as usize] = env[value as usize],
                Row::Load { into, cell } => match heap[env[cell as usize] as usize] {
                    Some(link) => env[into as usize] = link,
                    None => return self.found.dead_cell |= 1 << here,
                },
                Row::Store { cell, value } => match &mut heap[env[cell as usize] as usize] {
                    Some(link) => *link = env[value as usize],
                    None => return self.found.dead_cell |= 1 << here,
                },
                Row::Free { cell } => {
                    if heap[env[cell as usize] as usize].take().is_none() {
                        return self.found.dead_cell |= 1 << here;
                    }
                }
                Row::New { into } => {
                    for address in (1..=highest).filter(|&address| heap[address as usize].is_none()) {
                        env[into as usize] = address;
                        self.run(number, env, with(&heap, address, 0), highest);
                    }
                    // The addresses above are all alike.
                    highest += 1;
                    env[into as usize] = highest;
                    heap = with(&heap, highest, 0);
                }
                Row::Jump { to } => number = to,
                Row::Branch { left, right, to } => {
                    if env[left as usize] == env[right as usize] {
                        number = to;
                    }
                }
                Row::Cut(_) | Row::Call(_) | Row::Done => {
                    if !holds(&self.closing(row, &env), &heap) {
                        self.found.false_list |= 1 << here;
                    }
                    return;
                }
            }
        }
    }
}

/// The values under which the callee reads its before list.
fn entered(call: &Call, env: &Env) -> Env {
    let mut inside = [0; NAMES];
    inside[1] = env[call.arguments[0] as usize];
    inside[2] = env[call.arguments[1] as usize];
    inside[7] = env[call.ghosts[0] as usize];
    inside[8] = env[call.ghosts[1] as usize];
    inside
}

/// The values under which the callee reads its after list: its result is what the caller's variable then has.
fn returned(call: &Call, env: &Env) -> Env {
    let mut inside = entered(call, env);
    inside[1] = env[call.into as usize];
    inside
}
