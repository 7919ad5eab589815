//! What brute force goes by, against the definitions word by word: heaps are split in every way.

use plain_search::brute::{fact, heaps, holds, Env, Fact, Heap, EMPTY};
use plain_search::sheet::Atom;

const TOP: u8 = 3;

fn all_heaps() -> Vec<Heap> {
    let mut found = vec![EMPTY];
    for address in 1..=TOP {
        for heap in found.clone() {
            for link in 0..=TOP {
                let mut wider = heap;
                wider[address as usize] = Some(link);
                found.push(wider);
            }
        }
    }
    found
}

fn splits(heap: &Heap) -> Vec<(Heap, Heap)> {
    let mut found = vec![(EMPTY, EMPTY)];
    for address in 0..heap.len() {
        if heap[address].is_some() {
            let side = |(mut one, other): (Heap, Heap)| {
                one[address] = heap[address];
                (one, other)
            };
            let other_side = |(one, mut other): (Heap, Heap)| {
                other[address] = heap[address];
                (one, other)
            };
            found =
                found.iter().map(|&split| side(split)).chain(found.iter().map(|&split| other_side(split))).collect();
        }
    }
    found
}

fn is_cell(e: u8, f: u8, heap: &Heap) -> bool {
    let mut one = EMPTY;
    one[e as usize] = Some(f);
    e != 0 && *heap == one
}

fn is_segment(e: u8, f: u8, heap: &Heap) -> bool {
    if e == f {
        return *heap == EMPTY;
    }
    splits(heap).iter().any(|(one, rest)| (0..=TOP).any(|z| is_cell(e, z, one) && is_segment(z, f, rest)))
}

fn holds_by_splits(facts: &[Fact], heap: &Heap) -> bool {
    let Some((&first, rest)) = facts.split_first() else {
        return *heap == EMPTY;
    };
    let beside = |atom: &dyn Fn(&Heap) -> bool| {
        splits(heap).iter().any(|(one, other)| atom(one) && holds_by_splits(rest, other))
    };
    match first {
        Fact::Equal(e, f) => e == f && holds_by_splits(rest, heap),
        Fact::Unequal(e, f) => e != f && holds_by_splits(rest, heap),
        Fact::Cell(e, f) => beside(&|one| is_cell(e, f, one)),
        Fact::Segment(e, f) => beside(&|one| is_segment(e, f, one)),
    }
}

fn envs() -> Vec<Env> {
    let mut found = Vec::new();
    for code in 0..(TOP as usize + 1).pow(3) {
        let digit = |place: u32| (code / (TOP as usize + 1).pow(place) % (TOP as usize + 1)) as u8;
        found.push([0, digit(0), digit(1), 0, 0, 0, 0, digit(2), 0]);
    }
    found
}

fn lists() -> Vec<Vec<Atom>> {
    use Atom::{Eq, Lseg, Neq, Next};
    vec![
        vec![],
        vec![Eq(1, 2)],
        vec![Neq(1, 7), Lseg(1, 7)],
        vec![Next(1, 2), Next(2, 7)],
        vec![Next(1, 2), Lseg(2, 1)],
        vec![Lseg(1, 2), Lseg(2, 7)],
        vec![Lseg(1, 7), Lseg(2, 7)],
        vec![Lseg(1, 2), Lseg(1, 7)],
        vec![Lseg(1, 0), Lseg(2, 0), Next(7, 7)],
        vec![Lseg(1, 2), Next(2, 7), Lseg(7, 0)],
    ]
}

#[test]
fn a_list_holds_exactly_where_some_split_says_so() {
    for list in lists() {
        for env in envs() {
            let facts: Vec<Fact> = list.iter().map(|&atom| fact(atom, &env)).collect();
            let mut shown = Vec::new();
            heaps(&facts, &EMPTY, TOP, &mut |heap| shown.push(*heap));
            for heap in all_heaps() {
                let truth = holds_by_splits(&facts, &heap);
                assert_eq!(holds(&facts, &heap), truth, "{facts:?} of {heap:?}");
                assert_eq!(
                    shown.iter().filter(|&other| *other == heap).count(),
                    truth as usize,
                    "{facts:?} shows {heap:?}"
                );
            }
        }
    }
}
