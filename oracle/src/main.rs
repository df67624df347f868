//! The oracle's commands: `list`, `agreed`, `blocks`, `blocks-wanted`, `fresh SEED CASES LARGEST`,
//! `check SEED CASES LARGEST`, `lanczos`, `lanczos-fresh` and `lanczos-check` the same for lanczos, `findings`, `hypots SEED PAIRS`, `hypots-wanted SEED PAIRS`, `hypots-platform SEED PAIRS`.

use oracle::cases::*;
use oracle::{blocks, findings, lanczos_cases, pairs, plain, special, steps};
use std::io::{self, BufWriter, Write};

/// Words of a result up to this many stand in the committed list; a longer one is there by its hash.
const SHOWN: usize = 40;
const LIST_SEED: u64 = 8;
const LIST_RANDOM: usize = 3000;
const NAMES: [&str; 8] = ["", "symmetric_eigen", "svd", "solve", "pseudo_inverse", "qr_q", "row of V^T", "symmetric_eigen in steps"];

/// The cases of the committed list.
fn listed() -> Vec<Case> {
    let mut cases = special::all();
    let mut rng = Random::new(LIST_SEED);
    for _ in 0..LIST_RANDOM {
        let mut case = random(&mut rng, 12);
        // Most long inputs are made by the list's own generator, so that the list stays short.
        let len = case.a.len() + case.b.len();
        if len > 36 && !rng.one_in(12) && case.function != VT_ROW {
            let (kind, seed) = (1 + rng.below(2), rng.word() | 1);
            let scale = if rng.one_in(4) { rng.power(-1074, 1023) } else { 1.0 };
            let mut all = made(kind, seed, scale, len);
            case.b = all.split_off(case.a.len());
            case.a = all;
            case.input = Input::Made { kind, seed, scale };
        }
        cases.push(case);
    }
    cases
}

fn list(out: &mut impl Write) -> io::Result<()> {
    for case in listed() {
        case.write(out, SHOWN)?;
    }
    out.write_all(&0u64.to_le_bytes())
}

/// What a replay of the list writes where all agree.
fn agreed(out: &mut impl Write) -> io::Result<()> {
    let mut counts = [0; 8];
    listed().iter().for_each(|case| counts[case.function as usize] += 1);
    counts[7] = counts[EIGEN as usize];
    for function in 1..8 {
        writeln!(out, "{}: {} of {}", NAMES[function], counts[function], counts[function])?;
    }
    Ok(())
}

fn fresh(out: &mut impl Write, seed: u64, cases: usize, largest: u64) -> io::Result<()> {
    let mut rng = Random::new(seed);
    for _ in 0..cases {
        let case = random(&mut rng, largest);
        case.write(out, usize::MAX)?;
    }
    out.write_all(&0u64.to_le_bytes())
}

/// Where the patched functions answer 0, document 000 with the edition's hypot gives the same bits; and a run in steps ends as the one call. Also says how many answers
/// of each number there were, and in how many cases the platform's hypot gives other bits than each edition.
fn check(seed: u64, cases: usize, largest: u64) -> bool {
    let mut answers = [[0usize; 13]; 7];
    let mut marks = [[[0usize; 3]; 2]; 7];
    let mut compared = [0usize; 7];
    let mut wrong = 0;
    let mut other_hypot = [[0usize; 2]; 2];
    let mut rng = Random::new(seed);
    let mut all = special::all();
    while all.len() < cases {
        all.push(random(&mut rng, largest));
    }
    for case in &all {
        if case.function == VT_ROW {
            continue;
        }
        let done = case.outcome();
        answers[case.function as usize][done.answer.answer] += 1;
        if matches!(done.answer.answer, 8 | 10) && done.answer.place < 3 {
            marks[case.function as usize][(done.answer.answer == 10) as usize][done.answer.place] += 1;
        }
        let plus_zero = |cells: &[f64]| cells.iter().all(|x| x.to_bits() == 0);
        let (work, result) = case.before();
        let same = |x: &[f64], y: &[f64]| x.len() == y.len() && x.iter().zip(y).all(|(x, y)| x.to_bits() == y.to_bits());
        let at = done.answer.index == 0 || matches!(done.answer.answer, 8 | 10);
        let fits = at && match done.answer.answer {
            0 => plus_zero(&done.work) && done.result.iter().all(|x| x.is_finite()),
            1..=6 | 11 | 12 => same(&work, &done.work) && same(&result, &done.result),
            _ => plus_zero(&done.work) && plus_zero(&done.result),
        };
        if case.function == EIGEN {
            let p = case.parameters.map(|p| p as usize);
            let (mut work, mut result) = case.before();
            let answer = steps::whole(p[0], p[1], p[2], &case.a, &mut work, &mut result);
            if answer != done.answer || !same(&work, &done.work) || !same(&result, &done.result) {
                wrong += 1;
                println!("in steps {answer:?}: {:?} {:?}", case.parameters, case.a);
            }
        }
        if !fits {
            wrong += 1;
            println!("arrays or index after answer {}: {} {:?}", done.answer.answer, NAMES[case.function as usize], case.parameters);
        }
        if done.answer.answer != 0 {
            continue;
        }
        let p = case.parameters.map(|p| p as usize);
        let tolerance = f64::from_bits(case.parameters[4]);
        let given = match case.function {
            EIGEN if p[2] == 2 => plain::by_02::eigen_cells(p[0], &case.a),
            EIGEN => plain::by_01::eigen_cells(p[0], &case.a),
            SVD => plain::by_01::svd_cells(p[0], p[1], p[2] != 0, p[3] != 0, &case.a),
            SOLVE => plain::by_01::solve_cells(p[0], p[1], tolerance, &case.a, &case.b),
            PSEUDO_INVERSE => plain::by_01::pseudo_inverse_cells(p[0], p[1], tolerance, &case.a),
            _ => plain::by_01::qr_q_cells(p[0], p[1], &case.a),
        };
        compared[case.function as usize] += 1;
        if !same(&given, &done.result) {
            wrong += 1;
            println!("other bits: {} {:?} {:?}", NAMES[case.function as usize], case.parameters, case.a);
        }
        if case.function == EIGEN && p[0] <= 12 {
            let of = &mut other_hypot[p[2] - 1];
            of[0] += !same(&plain::platform::eigen_cells(p[0], &case.a), &done.result) as usize;
            of[1] += 1;
        }
    }
    for f in 1..6 {
        println!("{}: {} compared with document 000; cases by answer 0 to 12: {:?}, 8 by place 0 to 2: {:?}, 10: {:?}", NAMES[f], compared[f], answers[f], marks[f][0], marks[f][1]);
    }
    for (edition, of) in [1, 2].iter().zip(other_hypot) {
        println!("edition {edition}: {} of {} eigen cases up to n = 12 have other bits under the platform's hypot", of[0], of[1]);
    }
    println!("{} cases, {} wrong", all.len(), wrong);
    wrong == 0
}

fn main() -> io::Result<()> {
    let words: Vec<String> = std::env::args().skip(1).collect();
    let number = |i: usize, otherwise: u64| words.get(i).map_or(otherwise, |w| w.parse().expect("a number"));
    let mut out = BufWriter::new(io::stdout().lock());
    match words.first().map(String::as_str) {
        Some("list") => list(&mut out)?,
        Some("agreed") => agreed(&mut out)?,
        Some("blocks") => blocks::list(&mut out)?,
        Some("blocks-wanted") => blocks::wanted(&mut out)?,
        Some("fresh") => fresh(&mut out, number(1, 1), number(2, 100_000) as usize, number(3, 12))?,
        Some("check") => {
            drop(out);
            if !check(number(1, 1), number(2, 20_000) as usize, number(3, 12)) {
                std::process::exit(1);
            }
            return Ok(());
        }
        Some("lanczos") => lanczos_cases::list(&mut out)?,
        Some("lanczos-fresh") => lanczos_cases::fresh(&mut out, number(1, 1), number(2, 100_000) as usize, number(3, 12))?,
        Some("lanczos-check") => {
            drop(out);
            if !lanczos_cases::check(number(1, 1), number(2, 20_000) as usize, number(3, 12)) || !lanczos_cases::beside(number(1, 1), 400) {
                std::process::exit(1);
            }
            return Ok(());
        }
        Some("findings") => findings::print(),
        Some("hypots") => pairs::given(&mut out, number(1, 1), number(2, 2_000_000) as usize)?,
        Some("hypots-wanted") => pairs::wanted(&mut out, number(1, 1), number(2, 2_000_000) as usize)?,
        Some("hypots-platform") => {
            let count = number(2, 2_000_000) as usize;
            writeln!(out, "{} of {count} pairs have other bits under the platform's hypot than under edition 2", pairs::platform(number(1, 1), count))?;
        }
        _ => eprintln!("oracle list | oracle agreed | oracle blocks | oracle blocks-wanted | oracle lanczos | oracle lanczos-fresh SEED CASES LARGEST | oracle lanczos-check SEED CASES LARGEST | oracle findings | oracle hypots SEED PAIRS | oracle hypots-wanted SEED PAIRS | oracle hypots-platform SEED PAIRS | oracle fresh SEED CASES LARGEST | oracle check SEED CASES LARGEST"),
    }
    out.flush()
}
