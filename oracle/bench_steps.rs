//! A run of symmetric_eigen in steps beside the one call, and its longest step.

use super::*;

#[repr(C)]
#[derive(Clone, Copy)]
struct Run {
    n: usize,
    limit: usize,
    edition: usize,
    l: usize,
    m: usize,
    f: f64,
    tst1: f64,
    passes: usize,
    count: usize,
    stop: usize,
    index: usize,
    answer: [usize; 4],
}

entries! {
    fn crewelmarsh_eigen_start_abi5(n: usize, limit: usize, edition: usize, matrix: *const f64, matrix_len: usize, work: *mut f64,
        work_len: usize, result: *mut f64, result_len: usize) -> Run;
    fn crewelmarsh_eigen_step_abi5(run: Run, work: *mut f64, work_len: usize, result: *mut f64, result_len: usize) -> Run;
    fn crewelmarsh_eigen_finish_abi5(run: Run, work: *mut f64, work_len: usize, result: *mut f64, result_len: usize) -> Run;
}

fn start(n: usize, a: &[f64], work: &mut [f64], result: &mut [f64]) -> Run {
    unsafe { crewelmarsh_eigen_start_abi5(n, 60, 1, a.as_ptr(), a.len(), work.as_mut_ptr(), work.len(), result.as_mut_ptr(), result.len()) }
}

fn step(q: Run, work: &mut [f64], result: &mut [f64]) -> Run {
    unsafe { crewelmarsh_eigen_step_abi5(q, work.as_mut_ptr(), work.len(), result.as_mut_ptr(), result.len()) }
}

fn finish(q: Run, work: &mut [f64], result: &mut [f64]) -> Run {
    unsafe { crewelmarsh_eigen_finish_abi5(q, work.as_mut_ptr(), work.len(), result.as_mut_ptr(), result.len()) }
}

fn left(q: &Run) -> bool {
    q.stop == 0 && q.l < q.n
}

fn whole(n: usize, a: &[f64], work: &mut [f64], result: &mut [f64]) -> Run {
    let mut q = start(n, a, work, result);
    while left(&q) {
        q = step(q, work, result);
    }
    finish(q, work, result)
}

/// The times of a start, of the longest step and of a finish, in microseconds, and how many steps there were.
fn parts(n: usize, a: &[f64], work: &mut [f64], result: &mut [f64]) -> [f64; 4] {
    let micros = |since: Instant| since.elapsed().as_secs_f64() * 1e6;
    let clock = Instant::now();
    let mut q = start(n, a, work, result);
    let first = micros(clock);
    let (mut longest, mut steps) = (0.0f64, 0.0);
    while left(&q) {
        let clock = Instant::now();
        q = step(q, work, result);
        longest = longest.max(micros(clock));
        steps += 1.0;
    }
    let clock = Instant::now();
    black_box(finish(q, work, result));
    [first, longest, micros(clock), steps]
}

pub fn table(rng: &mut Random) {
    println!("\nA run in steps (edition 1) beside the one call: least times in microseconds. The ratio is the time in steps over the one call's.\n");
    println!("| input | n | one call | in steps | ratio | steps | start | longest step | finish |");
    println!("|---|---|---|---|---|---|---|---|---|");
    for n in [16, 64, 256] {
        for kind in 0..3 {
            let a = input(kind, n, rng);
            let (mut work, mut result) = (vec![0.0; n], vec![0.0; n + n * n]);
            let (mut work2, mut result2) = (work.clone(), result.clone());
            let one = eigen(n, 1, &a, &mut work, &mut result);
            let steps = whole(n, &a, &mut work2, &mut result2).answer;
            assert!([one.answer, one.place, one.index, one.count] == steps && one.answer == 0 && result == result2);
            let times = least(&mut [
                &mut || drop(black_box(eigen(n, 1, &a, &mut work, &mut result))),
                &mut || {
                    black_box(whole(n, &a, &mut work2, &mut result2));
                },
            ]);
            let parts = (0..21).map(|_| parts(n, &a, &mut work, &mut result)).reduce(|x, y| std::array::from_fn(|k| x[k].min(y[k]))).unwrap();
            println!(
                "| {} | {n} | {:.1} | {:.1} | {:.2} | {} | {:.1} | {:.1} | {:.1} |",
                KINDS[kind], times[0], times[1], times[1] / times[0], parts[3], parts[0], parts[1], parts[2]
            );
        }
    }
}
