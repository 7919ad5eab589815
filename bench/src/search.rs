//! The exact check of a routine by shapes: a pile of cases, last in, first out.

use crate::piece::{self, Contracts, Piece};
use crate::sheet::{Atom, Name, Routine, Row, RowNumber, NAMES};

/// Nil, eight names, and one node for each of eight rows of weight.
pub const NODES: usize = 17;

/// The most cases that wait at once.
pub const PILE: usize = 192;

/// Node 0 is nil. Different nodes stand for different values.
pub type Node = u8;

const NIL: Node = 0;

/// What is live at a node.
#[derive(Clone, Copy, Debug, PartialEq, Eq)]
pub enum Edge {
    /// Nil, or a value that is not live.
    Dead,
    /// One cell, linked to this node.
    Cell(Node),
    /// A segment of one or more cells to this node; its inner cells are no node's.
    Segment(Node),
}

/// What is still to be decided of a case.
#[derive(Clone, Copy, Debug, PartialEq, Eq)]
pub enum Stage {
    /// The piece's names from this one on have no node yet.
    Placing(u8),
    /// The opening's atoms from this one on are still to be added.
    Adding(u8),
    /// A segment is being laid from one node to another; behind it the atoms from `next` on.
    Linking { from: Node, to: Node, next: u8 },
    /// The opening is decided, and the case stands at its row.
    Running,
}

#[derive(Clone, Copy, Debug, PartialEq, Eq)]
pub struct Case {
    pub names: [Node; NAMES],
    pub edges: [Edge; NODES],
    pub nodes: u8,
    pub row: RowNumber,
    pub stage: Stage,
}

/// Rows at which a piece fails, one bit for each.
#[derive(Clone, Copy, Debug, Default, PartialEq, Eq)]
pub struct Failures {
    pub dead_cell: u64,
    pub false_list: u64,
}

#[derive(Clone, Copy, Debug, PartialEq, Eq)]
pub struct Verdict {
    pub number: u16,
    pub row: RowNumber,
}

pub struct Report {
    pub failures: Failures,
    pub verdict: Verdict,
    /// Cases popped.
    pub cases: u64,
    /// The most cases that waited at once.
    pub deepest: usize,
}

impl Failures {
    /// A cell that is not live anywhere comes before a false list anywhere.
    pub fn verdict(self) -> Verdict {
        if self.dead_cell != 0 {
            Verdict { number: 131, row: self.dead_cell.trailing_zeros() as u8 }
        } else if self.false_list != 0 {
            Verdict { number: 132, row: self.false_list.trailing_zeros() as u8 }
        } else {
            Verdict { number: 0, row: 0 }
        }
    }
}

/// The verdict on a routine, its calls going by `contracts` and, for its own number, by its own.
pub fn check(routine: &Routine, contracts: &Contracts) -> Report {
    if let Some(row) = piece::unfit_call(routine, contracts) {
        let verdict = Verdict { number: 123, row };
        return Report { failures: Failures::default(), verdict, cases: 0, deepest: 0 };
    }
    let closings = piece::closings(routine, contracts);
    let needed = piece::needed_names(routine, &closings);
    let mut search = Search::new(&routine.rows, &closings);
    for piece in piece::pieces(routine, contracts) {
        search.run(&piece::with_needed_names(piece, &needed));
    }
    Report {
        failures: search.failures,
        verdict: search.failures.verdict(),
        cases: search.cases,
        deepest: search.deepest,
    }
}

struct Search<'a> {
    rows: &'a [Row],
    closings: &'a [Vec<Atom>],
    pile: Vec<Case>,
    failures: Failures,
    cases: u64,
    deepest: usize,
}

impl<'a> Search<'a> {
    fn new(rows: &'a [Row], closings: &'a [Vec<Atom>]) -> Self {
        let pile = Vec::with_capacity(PILE);
        Search { rows, closings, pile, failures: Failures::default(), cases: 0, deepest: 0 }
    }

    fn run(&mut self, piece: &Piece) {
        self.push(Case::first(piece.first));
        while let Some(case) = self.pile.pop() {
            self.cases += 1;
            match case.stage {
                Stage::Placing(at) => self.place(piece, case, at),
                Stage::Adding(at) => self.add(piece, case, at),
                Stage::Linking { from, to, next } => self.link(case, from, to, next),
                Stage::Running => self.step(case),
            }
        }
    }

    fn push(&mut self, case: Case) {
        assert!(self.pile.len() < PILE, "the pile is full");
        self.pile.push(case);
        self.deepest = self.deepest.max(self.pile.len());
    }

    /// The next name goes to a node of its own or to one that is there.
    fn place(&mut self, piece: &Piece, case: Case, at: u8) {
        let Some(&name) = piece.names.get(at as usize) else {
            return self.push(Case { stage: Stage::Adding(0), ..case });
        };
        let later = &piece.names[at as usize + 1..];
        for node in 0..=case.nodes {
            let mut placed = case.at_stage(Stage::Placing(at + 1));
            placed.names[name as usize] = node;
            placed.nodes = case.nodes.max(node + 1);
            if placed.keeps_pure(&piece.opening, later) {
                self.push(placed);
            }
        }
    }

    fn add(&mut self, piece: &Piece, case: Case, at: u8) {
        let Some(&atom) = piece.opening.get(at as usize) else {
            return self.push(case.at_stage(Stage::Running));
        };
        let next = at + 1;
        match atom {
            Atom::Eq(e, f) => {
                if case.node(e) == case.node(f) {
                    self.push(case.at_stage(Stage::Adding(next)));
                }
            }
            Atom::Neq(e, f) => {
                if case.node(e) != case.node(f) {
                    self.push(case.at_stage(Stage::Adding(next)));
                }
            }
            Atom::Next(e, f) => {
                if case.is_free(case.node(e)) {
                    let added = case.at_stage(Stage::Adding(next));
                    self.push(added.with_edge(case.node(e), Edge::Cell(case.node(f))));
                }
            }
            Atom::Lseg(e, f) => {
                let (from, to) = (case.node(e), case.node(f));
                let stage = if from == to { Stage::Adding(next) } else { Stage::Linking { from, to, next } };
                self.push(case.at_stage(stage));
            }
        }
    }

    /// The segment goes straight to its end, or first to some node that may lie inside it.
    fn link(&mut self, case: Case, from: Node, to: Node, next: u8) {
        if !case.is_free(from) {
            return;
        }
        self.push(case.at_stage(Stage::Adding(next)).with_edge(from, Edge::Segment(to)));
        for through in 1..case.nodes {
            if through != from && through != to && case.is_free(through) {
                let stage = Stage::Linking { from: through, to, next };
                self.push(case.at_stage(stage).with_edge(from, Edge::Segment(through)));
            }
        }
    }

    fn step(&mut self, case: Case) {
        match self.rows[case.row as usize - 1] {
            Row::Set { into, value } => self.push(case.next_row().with_name(into, case.node(value))),
            Row::Load { into, cell } => {
                if let Some(link) = self.touch(&case, cell) {
                    self.push(case.next_row().with_name(into, link));
                }
            }
            Row::Store { cell, value } => {
                if self.touch(&case, cell).is_some() {
                    self.push(case.next_row().with_edge(case.node(cell), Edge::Cell(case.node(value))));
                }
            }
            Row::Free { cell } => {
                if self.touch(&case, cell).is_some() {
                    self.push(case.next_row().with_edge(case.node(cell), Edge::Dead));
                }
            }
            Row::New { into } => self.take(case, into),
            Row::Jump { to } => self.push(case.at_row(to)),
            Row::Branch { left, right, to } => {
                let equal = case.node(left) == case.node(right);
                self.push(if equal { case.at_row(to) } else { case.next_row() });
            }
            Row::Cut(_) | Row::Call(_) | Row::Done => self.close(case),
        }
    }

    /// The link of the cell that a row touches. At a segment there is none to give yet: its first cell is split off, and
    /// the row is done again for each of the two ways it can be.
    fn touch(&mut self, case: &Case, cell: Name) -> Option<Node> {
        let node = case.node(cell);
        match case.edges[node as usize] {
            Edge::Dead => {
                self.failures.dead_cell |= 1 << case.row;
                None
            }
            Edge::Cell(link) => Some(link),
            Edge::Segment(end) => {
                let rest = case.nodes;
                self.push(case.with_edge(node, Edge::Cell(end)));
                self.push(case.with_node(Edge::Segment(end)).with_edge(node, Edge::Cell(rest)));
                None
            }
        }
    }

    /// The new cell has a node of its own, or is at any dead one but nil.
    fn take(&mut self, case: Case, into: Name) {
        let taken = case.next_row();
        self.push(taken.with_node(Edge::Cell(NIL)).with_name(into, case.nodes));
        for node in 1..case.nodes {
            if case.is_free(node) {
                self.push(taken.with_edge(node, Edge::Cell(NIL)).with_name(into, node));
            }
        }
    }

    fn close(&mut self, case: Case) {
        if !case.covered_by(&self.closings[case.row as usize - 1]) {
            self.failures.false_list |= 1 << case.row;
        }
    }
}

impl Case {
    fn first(row: RowNumber) -> Case {
        Case { names: [NIL; NAMES], edges: [Edge::Dead; NODES], nodes: 1, row, stage: Stage::Placing(0) }
    }

    fn node(&self, name: Name) -> Node {
        self.names[name as usize]
    }

    /// Whether an edge may still start at the node.
    fn is_free(&self, node: Node) -> bool {
        node != NIL && self.edges[node as usize] == Edge::Dead
    }

    fn at_stage(mut self, stage: Stage) -> Case {
        self.stage = stage;
        self
    }

    fn at_row(mut self, row: RowNumber) -> Case {
        self.row = row;
        self
    }

    fn next_row(self) -> Case {
        self.at_row(self.row + 1)
    }

    fn with_name(mut self, name: Name, node: Node) -> Case {
        self.names[name as usize] = node;
        self
    }

    fn with_edge(mut self, node: Node, edge: Edge) -> Case {
        self.edges[node as usize] = edge;
        self
    }

    fn with_node(mut self, edge: Edge) -> Case {
        self.edges[self.nodes as usize] = edge;
        self.nodes += 1;
        self
    }

    /// Whether no Eq and no Neq of the list is broken, those that name a `later` name left aside.
    fn keeps_pure(&self, list: &[Atom], later: &[Name]) -> bool {
        list.iter().all(|atom| match *atom {
            Atom::Eq(e, f) => self.node(e) == self.node(f) || later.contains(&e) || later.contains(&f),
            Atom::Neq(e, f) => self.node(e) != self.node(f) || later.contains(&e) || later.contains(&f),
            Atom::Next(..) | Atom::Lseg(..) => true,
        })
    }

    /// Whether the list holds of every state that the case stands for.
    fn covered_by(&self, list: &[Atom]) -> bool {
        let mut left = self.edges;
        list.iter().all(|&atom| self.cover(&mut left, atom))
            && left[..self.nodes as usize].iter().all(|&edge| edge == Edge::Dead)
    }

    /// Takes the atom's edges out of those left; false if they are not there. A segment may have two cells and is no Next.
    fn cover(&self, left: &mut [Edge; NODES], atom: Atom) -> bool {
        match atom {
            Atom::Eq(e, f) => self.node(e) == self.node(f),
            Atom::Neq(e, f) => self.node(e) != self.node(f),
            Atom::Next(e, f) => {
                let edge = std::mem::replace(&mut left[self.node(e) as usize], Edge::Dead);
                edge == Edge::Cell(self.node(f))
            }
            Atom::Lseg(e, f) => {
                let mut node = self.node(e);
                while node != self.node(f) {
                    match std::mem::replace(&mut left[node as usize], Edge::Dead) {
                        Edge::Dead => return false,
                        Edge::Cell(to) | Edge::Segment(to) => node = to,
                    }
                }
                true
            }
        }
    }
}
