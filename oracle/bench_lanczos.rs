//! lanczos beside symmetric_eigen of the same matrix and beside document 000's own text with the request's sums: the leading pairs alone.

use super::*;
use oracle::plain::platform;

entries! {
    fn crewelmarsh_lanczos_abi5(n: usize, k: usize, limit: usize, edition: usize, matrix: *const f64, matrix_len: usize, start: *const f64,
        start_len: usize, work: *mut f64, work_len: usize, answer: *mut f64, answer_len: usize) -> Answer;
}

fn lanczos(n: usize, k: usize, a: &[f64], start: &[f64], work: &mut [f64], answer: &mut [f64]) -> Answer {
    unsafe {
        crewelmarsh_lanczos_abi5(n, k, 60, 1, a.as_ptr(), a.len(), start.as_ptr(), start.len(), work.as_mut_ptr(), work.len(), answer.as_mut_ptr(), answer.len())
    }
}

pub fn table(rng: &mut Random) {
    println!("\nlanczos, k pairs of n (edition 1), beside symmetric_eigen of the same matrix and document 000's Lanczos: microseconds; a ratio is the other time over ours.\n");
    println!("| input | n | k | ours | symmetric_eigen | ratio | document 000's Lanczos | ratio |");
    println!("|---|---|---|---|---|---|---|---|");
    for (n, k) in [(64, 4), (128, 8), (256, 4), (256, 8), (256, 16), (256, 32)] {
        for kind in 0..3 {
            let a = input(kind, n, rng);
            let start: Vec<f64> = (0..n).map(|_| rng.unit()).collect();
            let (mut work, mut answer) = (vec![0.0; oracle::lanczos::work_length(n, k)], vec![0.0; k + k * n]);
            let (mut work2, mut result) = (vec![0.0; n], vec![0.0; n + n * n]);
            let said = lanczos(n, k, &a, &start, &mut work, &mut answer);
            assert!(said.answer == 0 && said.place == k);
            assert!(eigen(n, 1, &a, &mut work2, &mut result).answer == 0);
            // The two that are compared take turns by themselves: beside a call that is twenty times as long they would be timed too seldom.
            let times = least(&mut [
                &mut || drop(black_box(lanczos(n, k, &a, &start, &mut work, &mut answer))),
                &mut platform::lanczos_call(n, k, &a, &start),
            ]);
            let whole = least(&mut [&mut || drop(black_box(eigen(n, 1, &a, &mut work2, &mut result)))])[0];
            println!(
                "| {} | {n} | {k} | {:.1} | {:.1} | {:.2} | {:.1} | {:.2} |",
                KINDS[kind], times[0], whole, whole / times[0], times[1], times[1] / times[0]
            );
        }
    }
}
