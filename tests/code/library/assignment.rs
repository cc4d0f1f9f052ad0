//! Members that are assigned to parents: worked rows, and each small table tried out.
ghost use Rattle.std.specs.Prelude.{◌≡◌, All, IfOk, vec_len};

use hayagriva::{Assignment, OutOfMemory, Steps, least_assignment};
use std::alloc::Global;
use std::process::Abort;

// A row of a table from a text of `T` and `F`.
fn row_of(alloc: Global, letters: &str, parents: usize) -> Result<Vec<bool>, OutOfMemory>
    ensures { IfOk result (λ v. vec_len v ≡ parents) }
{
    let bytes = letters.as_bytes();
    let mut row = Vec::new(alloc);
    'row: for place in 0..parents {
        row.push(bytes.get(place) == Some(&b'T'))?;
    }
    Ok(row)
}

fn table_of(alloc: Global, rows: &[&str], parents: usize) -> Result<Vec<Vec<bool>>, OutOfMemory>
    ensures { IfOk result (λ v. All (λ row. vec_len row ≡ parents) v.items) }
{
    let mut table = Vec::new(alloc);
    'rows: for row in rows {
        table.push(row_of(alloc, row, parents)?)?;
    }
    Ok(table)
}

// A row of a table from the last binary digits of a number; the other digits are left.
fn row_of_digits(alloc: Global, digits: &mut u64, parents: usize) -> Result<Vec<bool>, OutOfMemory>
    ensures { IfOk result (λ v. vec_len v ≡ parents) }
{
    let mut row = Vec::new(alloc);
    'row: for _ in 0..parents {
        row.push(*digits % 2 == 1)?;
        *digits /= 2;
    }
    Ok(row)
}

fn table_of_digits(
    alloc: Global,
    members: usize,
    parents: usize,
    digits: u64,
) -> Result<Vec<Vec<bool>>, OutOfMemory>
    ensures { IfOk result (λ v. All (λ row. vec_len row ≡ parents) v.items) }
{
    let mut digits = digits;
    let mut table = Vec::new(alloc);
    'rows: for _ in 0..members {
        table.push(row_of_digits(alloc, &mut digits, parents)?)?;
    }
    Ok(table)
}

// Goes through the choices of positions in order, up to one that gives each row one of its own.
fn first_choice(rows: &[Vec<bool>], chosen: &mut Vec<usize>) -> Result<bool, OutOfMemory> {
    let Some((row, rest)) = rows.split_first() else {
        return Ok(true);
    };
    'positions: for position in 0..row.len() {
        if row.get(position) == Some(&true) && !chosen.contains(&position) {
            chosen.push(position)?;
            if first_choice(rest, chosen)? {
                return Ok(true);
            }
            chosen.pop();
        }
    }
    Ok(false)
}

fn is_accepted(table: &[Vec<bool>], member: usize, position: usize) -> bool {
    match table.get(member) {
        Some(row) => row.get(position) == Some(&true),
        None => false,
    }
}

// Whether the members are in ascending order, and accepted at fewer positions than they are.
fn is_short(table: &[Vec<bool>], parents: usize, members: &[usize]) -> bool {
    let mut least = 0;
    'members: for member in members {
        if *member < least || *member >= table.len() {
            return false;
        }
        least = *member + 1;
    }
    let mut accepted: usize = 0;
    'positions: for position in 0..parents {
        if members
            .iter()
            .any(|member| is_accepted(table, *member, position))
        {
            accepted = accepted.saturating_add(1);
        }
    }
    accepted < members.len()
}

fn is_right(
    alloc: Global,
    table: &[Vec<bool>],
    parents: usize,
    answer: &Assignment,
) -> Result<bool, OutOfMemory> {
    let mut chosen = Vec::new(alloc);
    let is_there = first_choice(table, &mut chosen)?;
    Ok(match answer {
        Assignment::Found(positions) => is_there && chosen.as_slice() == positions.as_slice(),
        Assignment::Short(members) => !is_there && is_short(table, parents, members),
    })
}

fn tries_out(rt: &(impl Abort + AllocGlobal), members: usize, parents: usize, digits: u64) {
    let table = table_of_digits(rt.alloc(), members, parents, digits).expect(rt, "memory");
    let mut steps = Steps::new();
    let answer = least_assignment(rt.alloc(), &table, parents, &mut steps).expect(rt, "memory");
    let right = is_right(rt.alloc(), &table, parents, &answer).expect(rt, "memory");
    assert!(rt; right);
    drop(answer);
    drop(table);
}

// `Ok` is the positions, `Err` the members; the last number is the most looks.
struct Row {
    rows: &'static [&'static str],
    parents: usize,
    answer: Result<&'static [usize], &'static [usize]>,
    looks: u64,
}

const ALL: &str = "TTTTTTTTTTTTTTTTTTTT";

const ONE: &str = "TFFFFFFFFFFFFFFFFFFF";

const ROWS: &[Row] = &[
    Row {
        rows: &["TT", "TF"],
        parents: 2,
        answer: Ok(&[1, 0]),
        looks: 25,
    },
    Row {
        rows: &["TF", "TF"],
        parents: 2,
        answer: Err(&[0, 1]),
        looks: 25,
    },
    Row {
        rows: &["FF"],
        parents: 2,
        answer: Err(&[0]),
        looks: 12,
    },
    Row {
        rows: &["TTT", "TTT", "TFF"],
        parents: 3,
        answer: Ok(&[1, 2, 0]),
        looks: 70,
    },
    Row {
        rows: &[],
        parents: 3,
        answer: Ok(&[]),
        looks: 4,
    },
    Row {
        rows: &[
            ALL, ALL, ALL, ALL, ALL, ALL, ALL, ALL, ALL, ALL, ALL, ALL, ALL, ALL, ALL, ALL, ALL,
            ALL, ONE, ONE,
        ],
        parents: 20,
        answer: Err(&[18, 19]),
        looks: 16441,
    },
    Row {
        rows: &[""],
        parents: 0,
        answer: Err(&[0]),
        looks: 2,
    },
];

fn answers(rt: &(impl Abort + AllocGlobal), row: &Row) {
    let table = table_of(rt.alloc(), row.rows, row.parents).expect(rt, "memory");
    let mut steps = Steps::new();
    let answer = least_assignment(rt.alloc(), &table, row.parents, &mut steps).expect(rt, "memory");
    let right = match (&answer, row.answer) {
        (Assignment::Found(positions), Ok(wanted)) => positions.as_slice() == wanted,
        (Assignment::Short(members), Err(wanted)) => members.as_slice() == wanted,
        _ => false,
    };
    assert!(rt; right && steps.seen() <= row.looks);
    drop(answer);
    drop(table);
}

#[test]
fn answers_each_row(rt: HostRuntime) {
    for row in ROWS {
        answers(&rt, row);
    }
}

#[test]
fn is_the_first_choice_in_each_table_of_three_rows(rt: HostRuntime) {
    for digits in 0..4096 {
        tries_out(&rt, 3, 4, digits);
    }
}

#[test]
fn is_the_first_choice_in_tables_drawn(rt: HostRuntime) {
    let mut drawn: u64 = 1;
    for draw in 0..200 {
        drawn = drawn
            .wrapping_mul(6364136223846793005)
            .wrapping_add(1442695040888963407);
        let members = draw % 9;
        let parents = draw / 9 % 9;
        // The higher digits of a number drawn are the better ones. Every other table is sparse.
        let digits = drawn ^ drawn.rotate_left(32);
        let digits = if draw % 2 == 0 {
            digits
        } else {
            digits & digits.rotate_left(29)
        };
        tries_out(&rt, members, parents, digits);
    }
}
