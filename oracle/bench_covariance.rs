//! Times of the archive's covariance beside the plain triple loop in C, by two compilers, and the float way: to f64, less the mean, then BLAS.

use super::lapack::{Dsyrk, dsyrk};
use super::{Answer, crewelmarsh_covariance_abi5, least};
use oracle::cases::Random;
use std::hint::black_box;

unsafe extern "C" {
    fn triple_cc(n: usize, count: usize, samples: *const i16, matrix: *mut f64);
    fn triple_kit(n: usize, count: usize, samples: *const i16, matrix: *mut f64);
}

pub fn covariance(n: usize, count: usize, samples: &[i16], matrix: &mut [f64]) -> Answer {
    unsafe { crewelmarsh_covariance_abi5(n, count, samples.as_ptr(), samples.len(), matrix.as_mut_ptr(), matrix.len()) }
}

pub fn floats(n: usize, count: usize, samples: &[i16], planes: &mut [f64], matrix: &mut [f64], dsyrk: Dsyrk) {
    for (band, plane) in samples.chunks(count).zip(planes.chunks_mut(count)) {
        let mean = band.iter().map(|&s| s as f64).sum::<f64>() / count as f64;
        for (&s, p) in band.iter().zip(plane) {
            *p = s as f64 - mean;
        }
    }
    let (rows, deep, scale, zero) = (n as i32, count as i32, count as f64, 0.0);
    unsafe {
        dsyrk(b"L".as_ptr(), b"T".as_ptr(), &rows, &deep, &scale, planes.as_ptr(), &deep, &zero, matrix.as_mut_ptr(), &rows, 1, 1)
    };
}

/// 12-bit samples, as most sensors give them: 65,536 of the full 16 bits end in refusal 26.
pub fn table(rng: &mut Random) {
    const COUNT: usize = 46340;
    const MOST: usize = 65536;
    let dsyrk = dsyrk();
    let about = if dsyrk.is_some() { "" } else { " There is no BLAS here." };
    println!("\nThe covariance of n bands: nanoseconds for each product of two samples, n(n + 1)/2 · N of them, the least of repeated calls. The ratio is that of the C compiler's triple loop to ours.{about}\n");
    println!("| n | N | ours | triple loop, cc | ratio | triple loop, the toolchain's clang | ratio | f64 and dsyrk |");
    println!("|---|---|---|---|---|---|---|---|");
    for (n, count) in [(16, MOST), (64, MOST), (256, MOST), (64, COUNT)] {
        let samples: Vec<i16> = (0..n * count).map(|_| (rng.unit() * 1024.0) as i16 + 1024).collect();
        let (mut ours, mut cc, mut kit, mut blas) = (vec![0.0; n * n], vec![0.0; n * n], vec![0.0; n * n], vec![0.0; n * n]);
        let mut planes = vec![0.0; if dsyrk.is_some() { n * count } else { 0 }];
        assert_eq!(covariance(n, count, &samples, &mut ours).answer, 0);
        let times = least(&mut [
            &mut || drop(black_box(covariance(n, count, &samples, &mut ours))),
            &mut || unsafe { triple_cc(n, count, samples.as_ptr(), cc.as_mut_ptr()) },
            &mut || unsafe { triple_kit(n, count, samples.as_ptr(), kit.as_mut_ptr()) },
            &mut || dsyrk.iter().for_each(|&d| floats(n, count, &samples, &mut planes, &mut blas, d)),
        ]);
        assert!(ours == cc && ours == kit);
        let each: Vec<f64> = times.iter().map(|t| t * 1000.0 / ((n * (n + 1) / 2 * count) as f64)).collect();
        let beside = if dsyrk.is_some() { format!("{:.3}", each[3]) } else { String::new() };
        println!(
            "| {n} | {count} | {:.3} | {:.3} | {:.2} | {:.3} | {:.2} | {beside} |",
            each[0], each[1], each[1] / each[0], each[2], each[2] / each[0]
        );
    }
}
