//! `patched` behind the C entries of include/crewelmarsh.h: an archive that stands in for the real one where a
//! test or a driver is tried by itself.

#[allow(dead_code)]
mod block;
// The methods of `Hypot` have no entry.
#[allow(dead_code)]
mod hypot;
mod lanczos;
#[allow(dead_code)]
mod patched;
mod store;
#[allow(dead_code)]
mod steps;
mod tally;

use patched::Answer;
use steps::Run;
use std::slice;

unsafe fn lent<'a>(start: *const f64, len: usize) -> &'a [f64] {
    if len == 0 { &[] } else { unsafe { slice::from_raw_parts(start, len) } }
}

unsafe fn lent_mut<'a>(start: *mut f64, len: usize) -> &'a mut [f64] {
    if len == 0 { &mut [] } else { unsafe { slice::from_raw_parts_mut(start, len) } }
}

#[unsafe(no_mangle)]
pub unsafe extern "C" fn crewelmarsh_symmetric_eigen_abi5(
    n: usize,
    limit: usize,
    edition: usize,
    matrix: *const f64,
    matrix_len: usize,
    work: *mut f64,
    work_len: usize,
    result: *mut f64,
    result_len: usize,
) -> Answer {
    unsafe {
        patched::symmetric_eigen(n, limit, edition, lent(matrix, matrix_len), lent_mut(work, work_len), lent_mut(result, result_len))
    }
}

#[unsafe(no_mangle)]
pub unsafe extern "C" fn crewelmarsh_eigen_start_abi5(
    n: usize,
    limit: usize,
    edition: usize,
    matrix: *const f64,
    matrix_len: usize,
    work: *mut f64,
    work_len: usize,
    result: *mut f64,
    result_len: usize,
) -> Run {
    unsafe { steps::start(n, limit, edition, lent(matrix, matrix_len), lent_mut(work, work_len), lent_mut(result, result_len)) }
}

#[unsafe(no_mangle)]
pub unsafe extern "C" fn crewelmarsh_eigen_step_abi5(run: Run, work: *mut f64, work_len: usize, result: *mut f64, result_len: usize) -> Run {
    unsafe { steps::step(run, lent_mut(work, work_len), lent_mut(result, result_len)) }
}

#[unsafe(no_mangle)]
pub unsafe extern "C" fn crewelmarsh_eigen_finish_abi5(run: Run, work: *mut f64, work_len: usize, result: *mut f64, result_len: usize) -> Run {
    unsafe { steps::finish(run, lent_mut(work, work_len), lent_mut(result, result_len)) }
}

#[unsafe(no_mangle)]
pub unsafe extern "C" fn crewelmarsh_svd_abi5(
    m: usize,
    n: usize,
    want_u: usize,
    want_vt: usize,
    limit: usize,
    matrix: *const f64,
    matrix_len: usize,
    work: *mut f64,
    work_len: usize,
    result: *mut f64,
    result_len: usize,
) -> Answer {
    unsafe {
        let (work, result) = (lent_mut(work, work_len), lent_mut(result, result_len));
        patched::svd(m, n, want_u, want_vt, limit, lent(matrix, matrix_len), work, result)
    }
}

#[unsafe(no_mangle)]
pub unsafe extern "C" fn crewelmarsh_lanczos_abi5(
    n: usize,
    k: usize,
    limit: usize,
    edition: usize,
    matrix: *const f64,
    matrix_len: usize,
    start: *const f64,
    start_len: usize,
    work: *mut f64,
    work_len: usize,
    answer: *mut f64,
    answer_len: usize,
) -> Answer {
    unsafe {
        let (matrix, start) = (lent(matrix, matrix_len), lent(start, start_len));
        lanczos::lanczos(n, k, limit, edition, matrix, start, lent_mut(work, work_len), lent_mut(answer, answer_len))
    }
}

/// Ours, no document has it: the last k values of an eigen result, from the last one back, and their columns as rows.
fn leading(n: usize, k: usize, result: &[f64], out: &mut [f64]) -> Answer {
    if n > patched::LARGEST {
        return patched::told(1, 0, 0);
    }
    if k > n {
        return patched::told(15, 0, 0);
    }
    if let Some(place) = patched::first_wrong(&[(result.len(), n + n * n), (out.len(), k + k * n)]) {
        return patched::told(6, place, 0);
    }
    out.fill(0.0);
    if let Some(place) = patched::first_bad(result) {
        return patched::told(7, place, 0);
    }
    let (values, vectors) = result.split_at(n);
    let (kept, rows) = out.split_at_mut(k);
    for (t, j) in (n - k..n).rev().enumerate() {
        kept[t] = values[j];
        for i in 0..n {
            rows[t * n + i] = vectors[i * n + j];
        }
    }
    patched::told(0, 0, 0)
}

#[unsafe(no_mangle)]
pub unsafe extern "C" fn crewelmarsh_leading_abi5(n: usize, k: usize, result: *const f64, result_len: usize, out: *mut f64, out_len: usize) -> Answer {
    unsafe { leading(n, k, lent(result, result_len), lent_mut(out, out_len)) }
}

#[repr(C)]
pub struct Extent {
    start: usize,
    length: usize,
}

#[unsafe(no_mangle)]
pub extern "C" fn crewelmarsh_vt_row_extent_abi5(
    m: usize,
    n: usize,
    has_u: usize,
    has_vt: usize,
    result_len: usize,
    j: usize,
) -> Extent {
    let (start, length) = patched::vt_row_at(m, n, has_u, has_vt, j, result_len);
    Extent { start, length }
}

#[unsafe(no_mangle)]
pub unsafe extern "C" fn crewelmarsh_solve_abi5(
    m: usize,
    n: usize,
    has_u: usize,
    has_vt: usize,
    tolerance: f64,
    decomposition: *const f64,
    decomposition_len: usize,
    right_side: *const f64,
    right_side_len: usize,
    answer: *mut f64,
    answer_len: usize,
) -> Answer {
    unsafe {
        let (given, right) = (lent(decomposition, decomposition_len), lent(right_side, right_side_len));
        patched::solve(m, n, has_u, has_vt, tolerance, given, right, lent_mut(answer, answer_len))
    }
}

#[unsafe(no_mangle)]
pub unsafe extern "C" fn crewelmarsh_pseudo_inverse_abi5(
    m: usize,
    n: usize,
    has_u: usize,
    has_vt: usize,
    tolerance: f64,
    decomposition: *const f64,
    decomposition_len: usize,
    answer: *mut f64,
    answer_len: usize,
) -> Answer {
    unsafe {
        let given = lent(decomposition, decomposition_len);
        patched::pseudo_inverse(m, n, has_u, has_vt, tolerance, given, lent_mut(answer, answer_len))
    }
}

#[unsafe(no_mangle)]
pub unsafe extern "C" fn crewelmarsh_qr_q_abi5(
    m: usize,
    k: usize,
    matrix: *const f64,
    matrix_len: usize,
    answer: *mut f64,
    answer_len: usize,
) -> Answer {
    unsafe { patched::qr_q(m, k, lent(matrix, matrix_len), lent_mut(answer, answer_len)) }
}

// ---------------------------------------------------------------- transform blocks

unsafe fn bytes<'a>(start: *const u8, len: usize) -> &'a [u8] {
    if len == 0 { &[] } else { unsafe { slice::from_raw_parts(start, len) } }
}

fn word(x: &f64) -> u64 {
    if x.is_nan() { 0x7ff8_0000_0000_0000 } else { x.to_bits() }
}

fn refused(answer: usize) -> Answer {
    Answer { answer, place: 0, index: 0, count: 0 }
}

#[repr(C)]
pub struct Shape {
    answer: usize,
    rows: usize,
    columns: usize,
    parts: usize,
}

#[unsafe(no_mangle)]
pub unsafe extern "C" fn crewelmarsh_block_check_abi5(block: *const u8, block_len: usize) -> Shape {
    match block::read(unsafe { bytes(block, block_len) }) {
        Ok(b) => Shape { answer: 0, rows: b.rows, columns: b.columns, parts: b.parts.len() },
        Err(answer) => Shape { answer, rows: 0, columns: 0, parts: 0 },
    }
}

#[repr(C)]
pub struct Found {
    block: usize,
    start: usize,
    count: usize,
    rows: usize,
    columns: usize,
    own_answer: usize,
    main_answer: usize,
}

#[unsafe(no_mangle)]
pub unsafe extern "C" fn crewelmarsh_block_find_abi5(
    own: *const u8,
    own_len: usize,
    main_block: *const u8,
    main_len: usize,
    kind: usize,
) -> Found {
    let block::Found { block, start, count, rows, columns, own_answer, main_answer } =
        unsafe { block::find(bytes(own, own_len), bytes(main_block, main_len), kind) };
    Found { block, start, count, rows, columns, own_answer, main_answer }
}

#[unsafe(no_mangle)]
pub unsafe extern "C" fn crewelmarsh_block_copy_abi5(
    own: *const u8,
    own_len: usize,
    main_block: *const u8,
    main_len: usize,
    kind: usize,
    out: *mut f64,
    out_len: usize,
) -> Answer {
    match unsafe { block::copied(bytes(own, own_len), bytes(main_block, main_len), kind, out_len) } {
        Err(answer) => refused(answer),
        Ok((place, words)) => {
            let out = unsafe { lent_mut(out, out_len) };
            out.iter_mut().zip(words).for_each(|(x, w)| *x = f64::from_bits(w));
            Answer { place, ..refused(0) }
        }
    }
}

#[unsafe(no_mangle)]
pub extern "C" fn crewelmarsh_block_length_abi5(
    rows: usize,
    columns: usize,
    parts: usize,
    kind1: usize,
    kind2: usize,
    kind3: usize,
) -> usize {
    block::length(rows, columns, parts, [kind1, kind2, kind3])
}

#[unsafe(no_mangle)]
pub unsafe extern "C" fn crewelmarsh_block_write_abi5(
    rows: usize,
    columns: usize,
    parts: usize,
    kind1: usize,
    numbers1: *const f64,
    len1: usize,
    kind2: usize,
    numbers2: *const f64,
    len2: usize,
    kind3: usize,
    numbers3: *const f64,
    len3: usize,
    out: *mut u8,
    out_len: usize,
) -> Answer {
    let words = |start, len| unsafe { lent(start, len) }.iter().map(word).collect();
    let given = [(kind1, words(numbers1, len1)), (kind2, words(numbers2, len2)), (kind3, words(numbers3, len3))];
    let out = if out_len == 0 { &mut [] } else { unsafe { slice::from_raw_parts_mut(out, out_len) } };
    refused(block::write(rows, columns, parts, &given, out))
}

// ---------------------------------------------------------------- covariance

/// By its definition, in 128 bits, every entry by itself: no document of Rust has it.
fn covariance(n: usize, count: usize, samples: &[i16], matrix: &mut [f64]) -> Answer {
    let refused = |answer, place| Answer { answer, place, index: 0, count: 0 };
    if n > 256 {
        return refused(1, 0);
    }
    if !(1..=65536).contains(&count) {
        return refused(25, 0);
    }
    if samples.len() != n * count {
        return refused(6, 0);
    }
    if matrix.len() != n * n {
        return refused(6, 1);
    }
    let band = |x: usize| samples[x * count..(x + 1) * count].iter().map(|&s| s as i128);
    let sums: Vec<i128> = (0..n).map(|x| band(x).sum()).collect();
    for place in 0..n * n {
        let (x, y) = (place / n, place % n);
        let products: i128 = band(x).zip(band(y)).map(|(a, b)| a * b).sum();
        let entry = count as i128 * products - sums[x] * sums[y];
        if entry.abs() > 1 << 53 {
            matrix.fill(0.0);
            return refused(26, place);
        }
        matrix[place] = entry as f64;
    }
    refused(0, 0)
}

#[unsafe(no_mangle)]
pub unsafe extern "C" fn crewelmarsh_covariance_abi5(
    n: usize,
    count: usize,
    samples: *const i16,
    samples_len: usize,
    matrix: *mut f64,
    matrix_len: usize,
) -> Answer {
    unsafe {
        let samples = if samples_len == 0 { &[] } else { slice::from_raw_parts(samples, samples_len) };
        covariance(n, count, samples, lent_mut(matrix, matrix_len))
    }
}

#[unsafe(no_mangle)]
pub unsafe extern "C" fn crewelmarsh_sums_abi5(
    n: usize,
    count: usize,
    samples: *const i16,
    samples_len: usize,
    out: *mut f64,
    out_len: usize,
) -> Answer {
    let refused = |answer, place| Answer { answer, place, index: 0, count: 0 };
    if n > 256 {
        return refused(1, 0);
    }
    if !(1..=65536).contains(&count) {
        return refused(25, 0);
    }
    if samples_len != n * count {
        return refused(6, 0);
    }
    if out_len != n {
        return refused(6, 1);
    }
    let (samples, out) = unsafe { (of(samples, samples_len), lent_mut(out, out_len)) };
    for (band, sum) in samples.chunks(count).zip(out) {
        *sum = band.iter().map(|&s| s as i64).sum::<i64>() as f64;
    }
    refused(0, 0)
}

// ---------------------------------------------------------------- the store

unsafe fn of<'a, T>(start: *const T, len: usize) -> &'a [T] {
    if len == 0 { &[] } else { unsafe { slice::from_raw_parts(start, len) } }
}

unsafe fn of_mut<'a, T>(start: *mut T, len: usize) -> &'a mut [T] {
    if len == 0 { &mut [] } else { unsafe { slice::from_raw_parts_mut(start, len) } }
}

#[unsafe(no_mangle)]
pub unsafe extern "C" fn crewelmarsh_store_setup_abi5(
    quota0: usize,
    quota1: usize,
    list: *mut usize,
    list_len: usize,
    tiles: *const u16,
    tiles_len: usize,
    bytes: *const u8,
    bytes_len: usize,
) -> Answer {
    unsafe { refused(store::set_up(quota0, quota1, of_mut(list, list_len), of(tiles, tiles_len), of(bytes, bytes_len))) }
}

#[unsafe(no_mangle)]
pub unsafe extern "C" fn crewelmarsh_store_put_abi5(
    owner: usize,
    list: *mut usize,
    list_len: usize,
    tiles: *mut u16,
    tiles_len: usize,
    bytes: *mut u8,
    bytes_len: usize,
    tile: u16,
    block: *const u8,
    block_len: usize,
) -> Answer {
    unsafe { refused(store::put(owner, of_mut(list, list_len), of_mut(tiles, tiles_len), of_mut(bytes, bytes_len), tile, of(block, block_len))) }
}

#[unsafe(no_mangle)]
pub unsafe extern "C" fn crewelmarsh_store_length_abi5(
    owner: usize,
    list: *const usize,
    list_len: usize,
    tiles: *const u16,
    tiles_len: usize,
    bytes: *const u8,
    bytes_len: usize,
    tile: u16,
) -> Answer {
    let (answer, count) = unsafe { store::length(owner, of(list, list_len), of(tiles, tiles_len), of(bytes, bytes_len), tile) };
    Answer { answer, place: 0, index: 0, count }
}

#[unsafe(no_mangle)]
pub unsafe extern "C" fn crewelmarsh_store_fetch_abi5(
    owner: usize,
    list: *const usize,
    list_len: usize,
    tiles: *const u16,
    tiles_len: usize,
    bytes: *const u8,
    bytes_len: usize,
    tile: u16,
    out: *mut u8,
    out_len: usize,
) -> Answer {
    unsafe { refused(store::fetch(owner, of(list, list_len), of(tiles, tiles_len), of(bytes, bytes_len), tile, of_mut(out, out_len))) }
}

#[unsafe(no_mangle)]
pub unsafe extern "C" fn crewelmarsh_store_drop_abi5(
    owner: usize,
    list: *mut usize,
    list_len: usize,
    tiles: *mut u16,
    tiles_len: usize,
    bytes: *mut u8,
    bytes_len: usize,
    tile: u16,
) -> Answer {
    unsafe { refused(store::drop(owner, of_mut(list, list_len), of_mut(tiles, tiles_len), of_mut(bytes, bytes_len), tile)) }
}

#[unsafe(no_mangle)]
pub unsafe extern "C" fn crewelmarsh_store_reset_abi5(
    list: *mut usize,
    list_len: usize,
    tiles: *const u16,
    tiles_len: usize,
    bytes: *const u8,
    bytes_len: usize,
) -> Answer {
    unsafe { refused(store::reset(of_mut(list, list_len), of(tiles, tiles_len), of(bytes, bytes_len))) }
}

// ---------------------------------------------------------------- the tally

#[unsafe(no_mangle)]
pub unsafe extern "C" fn crewelmarsh_tally_add_abi5(tally: *mut tally::Tally, answer: usize, passes: usize) -> usize {
    unsafe { tally::add(&mut *tally, answer, passes) }
}
