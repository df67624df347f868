//! Times of document 000's Rust and of the archive's C entries, in one run on the same inputs: tables in Markdown.
//! LAPACK is measured beside them where the machine has it. Each time is the least processor time of repeated calls.

#[path = "bench_calls.rs"]
mod calls;
#[path = "bench_codec.rs"]
mod codec;
#[path = "bench_covariance.rs"]
mod covariances;
#[path = "bench_lapack.rs"]
mod lapack;
#[path = "bench_store.rs"]
mod stores;

use oracle::cases::Random;
use std::hint::black_box;
use std::time::Instant;

#[repr(C)]
struct Answer {
    answer: usize,
    place: usize,
    index: usize,
    count: usize,
}

/// The archive's entries. Where the machine is not x86-64, `native.sh` compiles the archive's module for it, and there the struct comes back
/// through a first pointer.
macro_rules! entries {
    ($(fn $name:ident($($p:ident: $t:ty),*) -> $answer:ty;)*) => {
        $(unsafe fn $name($($p: $t),*) -> $answer {
            #[cfg(target_arch = "x86_64")]
            {
                unsafe extern "C" {
                    fn $name($($p: $t),*) -> $answer;
                }
                unsafe { $name($($p),*) }
            }
            #[cfg(not(target_arch = "x86_64"))]
            {
                unsafe extern "C" {
                    fn $name(out: *mut $answer, $($p: $t),*) -> *mut $answer;
                }
                let mut out = std::mem::MaybeUninit::<$answer>::uninit();
                unsafe {
                    $name(out.as_mut_ptr(), $($p),*);
                    out.assume_init()
                }
            }
        })*
    };
}

#[path = "bench_lanczos.rs"]
mod leading;
#[path = "bench_steps.rs"]
mod steps;

#[repr(C)]
struct Shape {
    answer: usize,
    rows: usize,
    columns: usize,
    parts: usize,
}

entries! {
    fn crewelmarsh_symmetric_eigen_abi5(n: usize, limit: usize, edition: usize, matrix: *const f64, matrix_len: usize, work: *mut f64,
        work_len: usize, result: *mut f64, result_len: usize) -> Answer;
    fn crewelmarsh_svd_abi5(m: usize, n: usize, want_u: usize, want_vt: usize, limit: usize, matrix: *const f64, matrix_len: usize,
        work: *mut f64, work_len: usize, result: *mut f64, result_len: usize) -> Answer;
    fn crewelmarsh_solve_abi5(m: usize, n: usize, has_u: usize, has_vt: usize, tolerance: f64, decomposition: *const f64,
        decomposition_len: usize, right_side: *const f64, right_side_len: usize, answer: *mut f64, answer_len: usize) -> Answer;
    fn crewelmarsh_pseudo_inverse_abi5(m: usize, n: usize, has_u: usize, has_vt: usize, tolerance: f64, decomposition: *const f64,
        decomposition_len: usize, answer: *mut f64, answer_len: usize) -> Answer;
    fn crewelmarsh_qr_q_abi5(m: usize, k: usize, matrix: *const f64, matrix_len: usize, answer: *mut f64, answer_len: usize) -> Answer;
    fn crewelmarsh_block_check_abi5(block: *const u8, block_len: usize) -> Shape;
    fn crewelmarsh_block_copy_abi5(own: *const u8, own_len: usize, main_block: *const u8, main_len: usize, kind: usize, out: *mut f64,
        out_len: usize) -> Answer;
    fn crewelmarsh_block_write_abi5(rows: usize, columns: usize, parts: usize, kind1: usize, numbers1: *const f64, len1: usize,
        kind2: usize, numbers2: *const f64, len2: usize, kind3: usize, numbers3: *const f64, len3: usize, out: *mut u8, out_len: usize) -> Answer;
    fn crewelmarsh_covariance_abi5(n: usize, count: usize, samples: *const i16, samples_len: usize, matrix: *mut f64, matrix_len: usize) -> Answer;
    fn crewelmarsh_store_setup_abi5(quota0: usize, quota1: usize, list: *mut usize, list_len: usize, tiles: *const u16, tiles_len: usize, bytes: *const u8, bytes_len: usize) -> Answer;
    fn crewelmarsh_store_put_abi5(owner: usize, list: *mut usize, list_len: usize, tiles: *mut u16, tiles_len: usize, bytes: *mut u8, bytes_len: usize, tile: u16,
        block: *const u8, block_len: usize) -> Answer;
    fn crewelmarsh_store_length_abi5(owner: usize, list: *const usize, list_len: usize, tiles: *const u16, tiles_len: usize, bytes: *const u8, bytes_len: usize,
        tile: u16) -> Answer;
    fn crewelmarsh_store_fetch_abi5(owner: usize, list: *const usize, list_len: usize, tiles: *const u16, tiles_len: usize, bytes: *const u8, bytes_len: usize,
        tile: u16, out: *mut u8, out_len: usize) -> Answer;
    fn crewelmarsh_store_drop_abi5(owner: usize, list: *mut usize, list_len: usize, tiles: *mut u16, tiles_len: usize, bytes: *mut u8, bytes_len: usize, tile: u16) -> Answer;
}

fn eigen(n: usize, edition: usize, matrix: &[f64], work: &mut [f64], result: &mut [f64]) -> Answer {
    let (a, w, r) = (matrix.len(), work.len(), result.len());
    unsafe { crewelmarsh_symmetric_eigen_abi5(n, 60, edition, matrix.as_ptr(), a, work.as_mut_ptr(), w, result.as_mut_ptr(), r) }
}

fn svd(n: usize, matrix: &[f64], work: &mut [f64], result: &mut [f64]) -> Answer {
    let (a, w, r) = (matrix.len(), work.len(), result.len());
    unsafe { crewelmarsh_svd_abi5(n, n, 1, 1, 60, matrix.as_ptr(), a, work.as_mut_ptr(), w, result.as_mut_ptr(), r) }
}

fn solve(n: usize, given: &[f64], right: &[f64], answer: &mut [f64]) -> Answer {
    let (g, b, a) = (given.len(), right.len(), answer.len());
    unsafe { crewelmarsh_solve_abi5(n, n, 1, 1, 0.0, given.as_ptr(), g, right.as_ptr(), b, answer.as_mut_ptr(), a) }
}

fn pseudo_inverse(n: usize, given: &[f64], answer: &mut [f64]) -> Answer {
    let (g, a) = (given.len(), answer.len());
    unsafe { crewelmarsh_pseudo_inverse_abi5(n, n, 1, 1, 0.0, given.as_ptr(), g, answer.as_mut_ptr(), a) }
}

fn qr_q(n: usize, matrix: &[f64], answer: &mut [f64]) -> Answer {
    let (m, a) = (matrix.len(), answer.len());
    unsafe { crewelmarsh_qr_q_abi5(n, n, matrix.as_ptr(), m, answer.as_mut_ptr(), a) }
}

// ---------------------------------------------------------------- inputs

/// The covariance of `samples` rows of `n` numbers.
fn covariance(n: usize, samples: usize, mut draw: impl FnMut(usize, usize) -> f64) -> Vec<f64> {
    let x: Vec<f64> = (0..samples * n).map(|at| draw(at / n, at % n)).collect();
    let mut a = vec![0.0; n * n];
    for s in 0..samples {
        for i in 0..n {
            for j in 0..n {
                a[i * n + j] += x[s * n + i] * x[s * n + j] / samples as f64;
            }
        }
    }
    a
}

const SIZES: [usize; 7] = [4, 8, 16, 32, 64, 128, 256];
const KINDS: [&str; 3] = ["independent bands", "smooth spectrum", "few sources and noise"];

fn input(kind: usize, n: usize, rng: &mut Random) -> Vec<f64> {
    match kind {
        // Samples in which every band is drawn by itself.
        0 => covariance(n, 2 * n, |_, _| rng.unit()),
        // Correlation that falls off with the distance of two bands.
        1 => (0..n * n).map(|at| 0.95f64.powi((at / n).abs_diff(at % n) as i32)).collect(),
        // Four sources mixed into all bands, with noise of a thousandth.
        _ => {
            let mix: Vec<f64> = (0..4 * n).map(|_| rng.unit()).collect();
            let mut sources = [0.0; 4];
            covariance(n, 2 * n, |_, j| {
                if j == 0 {
                    sources = [0; 4].map(|_| rng.unit());
                }
                (0..4).map(|k| sources[k] * mix[k * n + j]).sum::<f64>() + 0.001 * rng.unit()
            })
        }
    }
}

// ---------------------------------------------------------------- times

unsafe extern "C" {
    fn clock_gettime(clock: i32, time: *mut [i64; 2]) -> i32;
}

/// The thread's processor time in seconds: what else the machine does is not counted.
fn processor() -> f64 {
    const THREAD: i32 = 3; // Linux's CLOCK_THREAD_CPUTIME_ID
    let mut time = [0; 2];
    assert_eq!(unsafe { clock_gettime(THREAD, &mut time) }, 0);
    time[0] as f64 + time[1] as f64 * 1e-9
}

/// The time of so many calls, in seconds.
fn spent(call: &mut dyn FnMut(), times: usize) -> f64 {
    let start = processor();
    (0..times).for_each(|_| call());
    processor() - start
}

/// The least time of one call in microseconds. Calls take turns, so that a slow spell meets all of them; short ones are timed several at once.
fn least(calls: &mut [&mut dyn FnMut()]) -> Vec<f64> {
    let mut turn = || calls.iter_mut().map(|call| spent(call, 1)).collect::<Vec<f64>>();
    // The first turn of short calls says little.
    let once = Some(turn()).filter(|t| t.iter().sum::<f64>() > 0.1).unwrap_or_else(turn);
    let batches: Vec<usize> = once.iter().map(|t| ((1e-4 / t) as usize).clamp(1, 1000)).collect();
    let round: f64 = once.iter().zip(&batches).map(|(t, &batch)| t * batch as f64).sum();
    let mut times = vec![f64::INFINITY; calls.len()];
    for _ in 0..((0.6 / round) as usize).clamp(5, 3000) {
        for ((call, time), &batch) in calls.iter_mut().zip(&mut times).zip(&batches) {
            *time = time.min(spent(call, batch) * 1e6 / batch as f64);
        }
    }
    times
}

/// Microseconds, with three digits or more from 0.1 on.
fn micros(time: f64) -> String {
    if time < 10.0 { format!("{time:.3}") } else { format!("{time:.1}") }
}

// ---------------------------------------------------------------- blocks

/// A full block, 256 by 256 with three parts (1,050,672 bytes): the check of its header, the check and all three parts copied out, and the
/// block written, beside a plain copy of as many bytes.
fn blocks(rng: &mut Random) {
    let counts = [256, 65536, 65536];
    let given: Vec<Vec<f64>> = counts.iter().map(|&n| (0..n).map(|_| rng.unit()).collect()).collect();
    let mut out: Vec<Vec<f64>> = counts.iter().map(|&n| vec![0.0; n]).collect();
    let mut block = vec![0u8; 48 + 8 * counts.iter().sum::<usize>()];
    let mut plain = vec![0u8; block.len()];
    let write = |given: &[Vec<f64>], to: &mut [u8]| unsafe {
        crewelmarsh_block_write_abi5(
            256, 256, 3, 1, given[0].as_ptr(), counts[0], 2, given[1].as_ptr(), counts[1], 3, given[2].as_ptr(), counts[2],
            to.as_mut_ptr(), to.len(),
        )
    };
    let check = |block: &[u8]| unsafe { crewelmarsh_block_check_abi5(block.as_ptr(), block.len()) };
    let copy = |block: &[u8], out: &mut [Vec<f64>]| {
        let shape = check(block);
        assert!(shape.answer == 0 && (shape.rows, shape.columns, shape.parts) == (256, 256, 3));
        for (to, kind) in out.iter_mut().zip(1..) {
            let done = unsafe {
                crewelmarsh_block_copy_abi5(std::ptr::null(), 0, block.as_ptr(), block.len(), kind, to.as_mut_ptr(), to.len())
            };
            assert_eq!(done.answer, 0);
        }
    };
    assert_eq!(write(&given, &mut block).answer, 0);
    copy(&block, &mut out);
    assert!(given == out);
    let full = block.clone();
    let times = least(&mut [
        &mut || black_box(&mut plain[..]).copy_from_slice(black_box(&full)),
        &mut || drop(black_box(check(black_box(&full)))),
        &mut || copy(black_box(&full), black_box(&mut out)),
        &mut || drop(black_box(write(black_box(&given), black_box(&mut block)))),
    ]);
    println!("\nA full block of 256 by 256, {} bytes, in microseconds; the share is that of a plain copy's speed.\n", full.len());
    println!("| what | time | share |");
    println!("|---|---|---|");
    println!("| a plain copy (`memcpy`) | {:.1} | 1 |", times[0]);
    println!("| the header checked | {:.3} | |", times[1]);
    println!("| checked, and all three parts copied out as doubles | {:.1} | {:.2} |", times[2], times[0] / times[2]);
    println!("| written from doubles | {:.1} | {:.2} |", times[3], times[0] / times[3]);
}

/// What docs/BENCHMARKS.md has between the same two marks, and tools/plot draws.
fn marked(rng: &mut Random) {
    println!("<!-- bench: begin -->");
    calls::table(rng);
    codec::table(rng);
    println!("<!-- bench: end -->");
}

fn main() {
    let mut rng = Random::new(1);
    match std::env::args().nth(1).as_deref() {
        Some("blocks") => blocks(&mut rng),
        Some("covariance") => covariances::table(&mut rng),
        Some("store") => stores::table(),
        Some("steps") => steps::table(&mut rng),
        Some("lanczos") => leading::table(&mut rng),
        Some("codec") => codec::table(&mut rng),
        Some("calls") => marked(&mut rng),
        _ => {
            marked(&mut rng);
            blocks(&mut rng);
            covariances::table(&mut rng);
            stores::table();
            steps::table(&mut rng);
            leading::table(&mut rng);
        }
    }
}
