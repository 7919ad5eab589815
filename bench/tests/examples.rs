//! The sheets of the folder examples and those worked through in docs/MEANING.md, by the search and by brute force.

use plain_search::formed::well_formed;
use plain_search::piece::NO_CONTRACTS;
use plain_search::sheet::{read, write, Atom, Contract, Routine, Row};
use plain_search::{brute, search};
use Atom::{Eq, Lseg, Neq, Next};

const TOP: u8 = 4;

fn example(name: &str) -> Routine {
    let text = std::fs::read(format!("../examples/{name}.sheet")).expect(name);
    let routine = read(&text);
    assert_eq!(write(&routine).as_bytes(), text, "{name} is not written as its routine is");
    assert!(well_formed(&routine), "{name} is not well formed");
    routine
}

fn meets(name: &str, routine: &Routine, number: u16, row: u8) {
    let found = search::check(routine, &NO_CONTRACTS);
    assert_eq!((found.verdict.number, found.verdict.row), (number, row), "{name} by the search");
    let tried = brute::failures(routine, &NO_CONTRACTS, TOP);
    assert_eq!(tried, found.failures, "{name} by brute force");
}

#[test]
fn each_example_meets_its_verdict() {
    let verdicts = std::fs::read_to_string("../examples/VERDICTS.txt").unwrap();
    for line in verdicts.lines() {
        let [name, number, row] = line.split(' ').collect::<Vec<_>>()[..] else { panic!("{line}") };
        let routine = example(name);
        assert_eq!(routine.number, 0, "{name} has another own number");
        meets(name, &routine, number.parse().unwrap(), row.parse().unwrap());
    }
}

#[test]
fn each_example_has_a_verdict() {
    let verdicts = std::fs::read_to_string("../examples/VERDICTS.txt").unwrap();
    let listed: Vec<&str> = verdicts.lines().map(|line| line.split(' ').next().unwrap()).collect();
    for entry in std::fs::read_dir("../examples").unwrap() {
        let file = entry.unwrap().file_name().into_string().unwrap();
        let unlisted = ["VERDICTS.txt", "bad-layout.sheet", "bad-operand.sheet"];
        let name = file.trim_end_matches(".sheet");
        assert!(unlisted.contains(&&file[..]) || listed.contains(&name), "{file} has no verdict");
    }
}

fn small(arguments: u8, before: &[Atom], rows: &[Row], after: &[Atom]) -> Routine {
    let contract = Contract { arguments, ghosts: 2, before: before.to_vec(), after: after.to_vec() };
    Routine { number: 0, variables: 2, contract, rows: rows.to_vec() }
}

#[test]
fn worked_sheets_of_the_reversal() {
    let reversal = example("reverse");
    let mut exchanged = reversal.clone();
    exchanged.rows.swap(2, 3);
    let mut untested = reversal.clone();
    untested.rows[1] = Row::Set { into: 3, value: 3 };
    let mut nonempty = reversal.clone();
    nonempty.contract.after.push(Neq(1, 0));
    meets("1", &reversal, 0, 0);
    meets("2", &exchanged, 132, 1);
    meets("3", &untested, 131, 3);
    meets("4", &nonempty, 132, 9);
}

#[test]
fn worked_sheets_of_segments() {
    let done = [Row::Done];
    let load = [Row::Load { into: 2, cell: 1 }, Row::Done];
    let free = [Row::Free { cell: 2 }, Row::Done];
    let renew = [Row::Free { cell: 1 }, Row::New { into: 1 }, Row::Done];
    meets("5", &small(1, &[Lseg(1, 7), Lseg(7, 0)], &done, &[Lseg(1, 0)]), 0, 0);
    meets("6", &small(1, &[Lseg(1, 7), Lseg(7, 8)], &done, &[Lseg(1, 8)]), 132, 1);
    meets("7", &small(1, &[Neq(1, 8), Next(1, 7), Lseg(7, 8)], &done, &[Lseg(1, 8)]), 0, 0);
    meets("8", &small(1, &[Next(1, 7), Lseg(7, 8)], &done, &[Lseg(1, 8)]), 132, 1);
    meets("9", &small(1, &[Next(1, 7), Next(1, 8)], &done, &[Neq(1, 1)]), 0, 0);
    let either = [Lseg(1, 7), Lseg(1, 8)];
    meets("10", &small(1, &[Neq(7, 8), Lseg(1, 7), Lseg(1, 8)], &load, &either), 0, 0);
    meets("11", &small(1, &either, &load, &either), 131, 1);
    meets("12", &small(2, &[Eq(2, 8), Lseg(1, 7), Lseg(7, 2), Next(2, 0)], &free, &[Lseg(1, 8)]), 0, 0);
    meets("13", &small(1, &[Eq(1, 7), Next(1, 0)], &renew, &[Neq(1, 7), Next(1, 0)]), 132, 3);
}

#[test]
fn a_piece_that_no_way_leads_to_counts() {
    let rows = [Row::Jump { to: 4 }, Row::Cut(vec![]), Row::Load { into: 2, cell: 2 }, Row::Done];
    meets("unreached", &small(1, &[], &rows, &[]), 131, 3);
}

#[test]
fn the_end_of_a_segment_is_no_cell_of_it() {
    let rows = [Row::Free { cell: 2 }, Row::Done];
    meets("end", &small(2, &[Lseg(1, 2)], &rows, &[]), 131, 1);
}

#[test]
fn what_the_first_sheet_says_of_frames_and_loops() {
    let mut recursion = example("reverse-recursive");
    let Row::Call(call) = &mut recursion.rows[2] else { panic!("row 3 is the call") };
    assert_eq!(call.frame, [Eq(1, 7), Next(1, 2)]);
    call.frame.pop();
    meets("frame", &recursion, 131, 5);
    assert_eq!(search::check(&recursion, &NO_CONTRACTS).failures.false_list & 1 << 3, 1 << 3);
    let forever = [Row::Cut(vec![Lseg(1, 0)]), Row::Jump { to: 1 }];
    meets("forever", &small(1, &[Lseg(1, 0)], &forever, &[]), 0, 0);
}

#[test]
fn the_first_sheet_shows_the_example() {
    let page = std::fs::read_to_string("../docs/FIRST-SHEET.md").unwrap();
    let text = std::fs::read_to_string("../examples/append.sheet").unwrap();
    assert!(page.contains(&format!("```\n{text}```\n")));
}

#[test]
fn the_hard_sheets_are_sheets() {
    for entry in std::fs::read_dir("hard").unwrap() {
        let path = entry.unwrap().path();
        let text = std::fs::read(&path).unwrap();
        let routine = read(&text);
        assert!(write(&routine).as_bytes() == text && well_formed(&routine), "{path:?}");
    }
}
