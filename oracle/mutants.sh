#!/bin/sh
# Wrong versions of the patched functions, each behind the C entries in the archive's place. The committed list and the C tests
# (tests/*.c) must each find every one: a version that agrees with all cases of the list, or that passes all of the tests, fails this
# script. The patched functions as they are come first, and must pass both. Those of blocks, of the store, of the tally and of what a step refuses are for the C tests alone: the list has none.
# Each line of the table is a sed command on src/patched.rs (for hypot on src/hypot.rs, for blocks on src/block.rs, for the store on src/store.rs, for steps on src/steps.rs, for the tally on src/tally.rs, for lanczos on src/lanczos.rs); it must change the text.
# Needs rustc, a C and a C++ compiler: RUSTC, CC, CXX.
set -e
cd "$(dirname "$0")"
for tool in "${RUSTC:=rustc}" "${CC:=cc}" "${CXX:=c++}"; do
    command -v "${tool%% *}" >/dev/null || { echo "mutants: there is no $tool here"; exit 1; }
done
out=target/mutants
mkdir -p $out
rm -f $out/*.o
wanted="boundary: $(sed -n 's/^boundary-checks //p' ../tools/counts) checks, 0 failed"

$CC -std=c99 -O1 -ffp-contract=off -c runner.c -o $out/runner.o
for test in ../tests/*.c; do
    $CC -std=c99 -O1 -ffp-contract=off -I../include -c "$test" -o $out/tests_"$(basename "$test" .c)".o
done
$CXX -x c++ -std=c++98 -O1 -ffp-contract=off -I../include -c ../tests/header.c -o $out/tests_header_cpp.o

build() { # the text in $out, behind the entries, under both programs
    $RUSTC --edition 2024 -C opt-level=1 -C panic=abort -A warnings --crate-type staticlib --crate-name mutant $out/entries.rs -o $out/libmutant.a
    $CC $out/runner.o $out/libmutant.a -lpthread -ldl -lm -o $out/runner
    $CC $out/tests_*.o $out/libmutant.a -lpthread -ldl -lm -o $out/boundary
}
listed() { timeout 60 $out/runner <$list >$out/said 2>&1; }
tested() { timeout 60 $out/boundary >$out/tests 2>&1 && [ "$(tail -n 1 $out/tests)" = "$wanted" ]; }

# What the last line of a run says, if it is the count. A run that crashes, or that is ended after a minute, has none.
told() { tail -n 1 "$2" | grep "$1" | sed 's/.*, //' | grep . || echo 'no count'; }

left=0
cp src/entries.rs src/block.rs src/store.rs src/tally.rs src/hypot.rs src/lanczos.rs src/patched.rs src/steps.rs $out/
build
for list in ../crates/test_replay/stdin ../tests/vectors/lanczos.list; do
    listed || { echo "the patched functions as they are: $list differs; $(tail -n 1 $out/said)"; left=1; }
done
tested || { echo "the patched functions as they are: the C tests fail; $(tail -n 1 $out/tests)"; left=1; }
while IFS='	' read -r name edit; do
    cp src/entries.rs src/block.rs src/store.rs src/tally.rs src/hypot.rs src/lanczos.rs src/patched.rs src/steps.rs $out/
    text=patched.rs list=../crates/test_replay/stdin
    case $name in lanczos*) list=../tests/vectors/lanczos.list ;; esac
    case $name in hypot*) text=hypot.rs ;; block*) text=block.rs ;; store*) text=store.rs ;; step*) text=steps.rs ;; tally*) text=tally.rs ;; lanczos*) text=lanczos.rs ;; esac
    sed "$edit" src/$text >$out/$text
    if cmp -s src/$text $out/$text; then
        echo "$name: the edit changes nothing"
        left=1
        continue
    fi
    build
    if [ $text = block.rs ]; then by_list='has no blocks'
    elif [ $text = store.rs ]; then by_list='has no store'
    elif [ "${name#step refusal}" != "$name" ]; then by_list='has no damaged run'
    elif [ $text = tally.rs ]; then by_list='has no tally'
    elif listed; then by_list='NOT FOUND'; left=1; else by_list=$(told ', .* differ' $out/said); fi
    if tested; then by_tests='NOT FOUND'; left=1; else by_tests=$(told 'checks, .* failed' $out/tests); fi
    echo "$name: list: $by_list; C tests: $by_tests"
done <<'TABLE'
norm_sq summed backwards	/let mut norm_sq = 0.0;/,/norm_sq +=/s/for i in 0..rows/for i in (0..rows).rev()/
refusal over the upper triangle	s/for j in 0..=i {$/for j in 0..n {/;/fn tred2/,$s/for j in 0..n {/for j in 0..n {/
only the first n cleared	/fn symmetric_eigen/,/^}/s/result.fill(0.0)/result[..n].fill(0.0)/
work not cleared	/fn svd/,/^}/s/    work.fill(0.0);//
tolerance by >=	s/values\[k\] > tolerance/values[k] >= tolerance/
NaN tolerance taken	s/tolerance.is_nan() || tolerance < 0.0/tolerance < 0.0/
negative tolerance taken	s/tolerance.is_nan() || tolerance < 0.0/tolerance.is_nan()/
tolerance -0.0 refused	s/|| tolerance < 0.0/|| tolerance.is_sign_negative()/
tolerance before the right side	s/if right_side.len() != m {/if right_side.len() != m \&\& !bad_tolerance(tolerance) {/
tolerance after the lengths	s/if bad_tolerance(tolerance) {/if bad_tolerance(tolerance) \&\& decomposition.len() == decomposition_length(m, n, has_u, has_vt) {/
answer cleared on 11	s/return told(11, 0, 0);/answer.fill(0.0); return told(11, 0, 0);/
tolerance not looked at in pseudo_inverse	/fn pseudo_inverse/,/^}/s/if bad_tolerance(tolerance) {/if false {/
equal values backwards	s/partial_cmp(&s\[i\]).unwrap()/partial_cmp(\&s[i]).unwrap().then(j.cmp(\&i))/
every matrix refused	s/let mut v = matrix.to_vec();/if n > 3 { return told(8, 0, 0); } let mut v = matrix.to_vec();/
limit tested before convergence	s/if e\[l\].abs() <= eps \* tst1 {/if passes < limit \&\& e[l].abs() <= eps * tst1 {/
limit tested before settled	s/if !changed {/if !changed \&\& count < limit {/
limit counted over all l	s/if passes == limit {/if count >= limit {/
mark 1 left out in eigen	s/mark(1, count, &\[d, e\])/None::<Answer>/
mark 1 looks at d alone	s/&\[d, e\]/\&[d]/
mark 2 left out in eigen	s/mark(2, count, &\[d, v\])/None::<Answer>/
mark 0 left out	s/mark(0, 0, &\[&d, &e, &v\])/None::<Answer>/
mark 1 left out in svd	s/mark(1, count, &\[u, v\])/None::<Answer>/
mark 2 left out in svd	s/mark(2, count, &\[s, u, v\])/None::<Answer>/
8 given for a NaN	s/if x.is_nan() { 10 } else { 8 }/8/
10 given for an infinity	s/if x.is_nan() { 10 } else { 8 }/10/
8 given for a NaN in qr_q	s/answer: class(norm)/answer: 8/
class of the last bad number	s/class(numbers\[index\])/class(numbers[numbers.iter().rposition(|x| !x.is_finite())?])/
index of the last bad number	s/place, index, count })/place, index: numbers.iter().rposition(|x| !x.is_finite())?, count })/
index from its own array's start	s/place, index, count })/place, index: arrays.iter().find_map(|a| first_bad(a))?, count })/
index always 0	s/place, index, count })/place, index: 0, count })/
index column by column in svd	s/mark(1, count, &\[u, v\])/mark(1, count, \&[\&(0..rows * n).map(|x| u[x % rows * n + x \/ rows]).collect::<Vec<f64>>(), v])/
index column by column in pseudo_inverse	/fn pseudo_inverse/,/^}/s/    marked(answer)/    let a = marked(answer); Answer { index: a.index % m.max(1) * n + a.index \/ m.max(1), ..a }/
e before d at mark 0	s/&\[&d, &e, &v\]/\&[\&e, \&d, \&v]/
e before d at mark 1	s/&\[d, e\]/\&[e, d]/
e one further at mark 1	s/&\[d, e\]/\&[d, \&[0.0], e]/
v before d at mark 2	s/&\[d, v\]/\&[v, d]/
factors before values at mark 2	s/&\[s, u, v\]/\&[u, v, s]/
index 0 in qr_q	s/place: j, index: j/place: j, index: 0/
place 0 in qr_q	s/place: j, index: j/place: 0, index: j/
index not 0 on 7	s/return told(7, i \* n + j, 0);/return Answer { index: i * n + j, ..told(7, i * n + j, 0) };/
index not 0 on 9 in eigen	s/return told(9, l, count);/return Answer { index: l, ..told(9, l, count) };/
index not 0 on 9 in svd	s/return told(9, count, count);/return Answer { index: count, ..told(9, count, count) };/
tst1 taken anew	s/if tst1 < here {/if true {/
zeta of -0 takes sign -1	s/let sign = if zeta >= 0.0/let sign = if zeta > 0.0 || (zeta == 0.0 \&\& zeta.is_sign_positive())/
gamma equal to the bound turns	s/gamma.abs() <= f64::EPSILON/gamma.abs() < f64::EPSILON/
norm by >= EPSILON	s/if norm > f64::EPSILON/if norm >= f64::EPSILON/
one pass in qr_q	s/for _pass in 0..2/for _pass in 0..1/
sort by <=	s/if d\[j\] < p {/if d[j] <= p {/
a square matrix transposed	s/if m >= n/if m > n/
V^T times U first	s/v_t\[k \* n + j\] \* sinv\[k\] \* u\[i \* r + k\]/v_t[k * n + j] * u[i * r + k] * sinv[k]/
lengths before the limit	/fn symmetric_eigen/,/^}/s/if limit < 1 || limit > MOST {/if matrix.len() == n * n \&\& (limit < 1 || limit > MOST) {/
answers 3 and 4 swapped	s/told(3, 0, 0)/told(4, 0, 0)/
right side before the flags	s/if right_side.len() != m {/if right_side.len() > m {/
right side's place from 0	s/decomposition.len() + place/place/
count of sweeps one less	s/told(9, count, count)/told(9, count, count - 1)/
edition 3 taken	s/if edition != 1 \&\& edition != 2 {/if edition != 1 \&\& edition != 2 \&\& edition != 3 {/
edition not looked at	s/if edition != 1 \&\& edition != 2 {/if false {/
edition after the lengths	s/if edition != 1 \&\& edition != 2 {/if edition != 1 \&\& edition != 2 \&\& matrix.len() == n * n \&\& work.len() == n {/
edition before the limit	s/if limit < 1 || limit > MOST {/if (1..=2).contains(\&edition) \&\& (limit < 1 || limit > MOST) {/;/fn svd/,$s/(1..=2).contains(&edition) && //
arrays cleared on 12	s/return told(12, 0, 0);/work.fill(0.0); return told(12, 0, 0);/
hypot by edition 1 always	s/if edition == 2 { hypot02/if edition == 9 { hypot02/
hypot by edition 2 always	s/if edition == 2 { hypot02/if edition < 9 { hypot02/
hypot 2 rounded down	s/Ordering::Greater => high,/Ordering::Greater => low,/
hypot of the larger first	s/if x.abs() < y.abs()/if x.abs() > y.abs()/
hypot by root(x*x + y*y)	s/    let q = b \/ a;/    return (a * a + b * b).sqrt(); #[allow(unreachable_code)] let q = b \/ a;/
block little-endian	s/u32::from_be_bytes/u32::from_le_bytes/
block kind twice	s/\*before >= kind/*before > kind/
block kind 4 taken	s/2 | 3 => Some/2..=4 => Some/
block offset behind three entries	s/let mut end = block.len() - rest.len();/let mut end = 48;/
block offset not looked at	s/if offset != end {/if offset < end {/
block count before kind	s/let Some(wanted) = count_of(rows, columns, kind) else { return Err(23) };/let Some(wanted) = count_of(rows, columns, kind) else { return Err(22) };/
block 21 before 20	s/n if n < end => Err(20)/n if n < end => Err(21)/
block bytes over taken	s/n if n > end => Err(21),//
block of 257	s/rows > 256 ||/rows > 257 ||/
block main before own	s/\[(1, &own), (2, &main)\]/[(2, \&main), (1, \&own)]/
block answers exchanged	s/own_answer: answer(&own), main_answer: answer(&main)/own_answer: answer(\&main), main_answer: answer(\&own)/
block rows of the own for a part of the main	s/rows: block.rows, columns: block.columns/rows: own.as_ref().map_or(block.rows, |b| b.rows), columns: block.columns/
block rows where nothing is found	s/^    answers$/    Found { rows: own.map_or(0, |b| b.rows), ..answers }/
block copy silent on the own block	s/Ok((found.own_answer,/Ok((0,/
block copy tells of the main block	s/Ok((found.own_answer,/Ok((found.main_answer,/
block values of a matrix's count	s/1 => Some(rows.min(columns))/1 => Some(rows * columns)/
block written where it is short	s/if block.len() != out.len() {/if block.len() > out.len() {/
block length where refused	s/Some(_) => 0,/Some(_) => 12,/
store last byte refused	s/block.len() > list\[1 + owner \* OWN\]/block.len() >= list[1 + owner * OWN]/
store quota of the other	s/block.len() > list\[1 + owner \* OWN\]/block.len() > list[1 + (1 - owner) * OWN]/
store room for a quota	s/block.len() > list\[1 + owner \* OWN\]/block.len() > list[0]/
store repeated tile taken	/pub fn put/,/return 31/s/if held.iter().any(|&(other, _)| other == tile)/if false/
store 33 entries	/pub fn put/,/return 33/s/held.len() == ENTRIES/held.len() > ENTRIES/
store 33 over both	/pub fn put/,/return 33/s/held.len() == ENTRIES/list[2] + list[2 + OWN] >= ENTRIES/
store 33 before 31	/pub fn put/,/^}/s/    if held.iter().any/    if held.len() == ENTRIES { return 33 }\n    if held.iter().any/
store 30 before 33	/pub fn put/,/^}/s/    if held.len() == ENTRIES/    if block.len() > list[1 + owner * OWN] { return 30 }\n    if held.len() == ENTRIES/
store drop leaves a gap	/pub fn drop/,/^}/s/held.remove(k);/held[k].1.clear();/
store drop of the last	/pub fn drop/,/^}/s/held.remove(k);/held.pop();/
store drop of the other's	/pub fn drop/,/^}/s/lay(owner,/list[2 + (1 - owner) * OWN] = 0;\n    lay(owner,/
store destination may be longer	s/if out.len() != block.len() {/if out.len() < block.len() {/;s/out.copy_from_slice(block);/out[..block.len()].copy_from_slice(block);/
store tile twice let pass	/^fn read/,/^}/s/if held.iter().any(|&(other, _)| other == tile)/if false/
store parts leave the quota	s/let mut rest = &bytes\[start..start + own\[0\]\];/let mut rest = \&bytes[start..];/
store another buffer taken	s/bytes.len() == list\[0\]/bytes.len() >= list[0]/
store any room taken	s/ \&\& list\[0\] <= MOST//
store quotas not looked at	s/ \&\& sum(list) == list\[0\] as u128//
store any number left over taken	s/sum(list) == list\[0\] as u128/sum(list) <= list[0] as u128/
store left over not written	/pub fn set_up/,/^}/s/list\[LEFT\] = .*//
store sum wraps	s/\.map(|&x| x as u128).sum::<u128>()/.fold(0usize, |a, \&x| a.wrapping_add(x)) as u128/
store list one longer taken	/^fn laid/,/^}/s/list.len() == LIST/list.len() >= LIST/
store 39 before 34	/^fn read/,/^}/s/    if owner > 1 {/    if !laid(list, tiles, bytes) { return Err(39) }\n    if owner > 1 {/
store owner 2 taken	/^fn read/,/^}/s/    if owner > 1 {/    if owner > 2 {/;s/tiles\[owner \* ENTRIES..\]/tiles[owner * ENTRIES % 64..]/;s/list\[1 + owner \* OWN..\]\[..OWN\];/list[1 + owner % 2 * OWN..][..OWN];/
store other's list looked at	/^fn read/,/^}/s/if own\[1\] > ENTRIES {/if list[2] > ENTRIES || list[2 + OWN] > ENTRIES {/
store 39 before 35	/pub fn set_up/,/^}/s/    if quota0.checked_add/    if list.len() != LIST { return 39 }\n    if quota0.checked_add/
store 35 before 37	/pub fn set_up/,/^}/s/    if bytes.len() > MOST {/    if quota0 > MOST { return 35 }\n    if bytes.len() > MOST {/
store quotas wrap	s/quota0.checked_add(quota1).is_none_or(|both| both > bytes.len())/quota0.wrapping_add(quota1) > bytes.len()/
store set-up keeps blocks	/pub fn set_up/,/^}/s/list\[2 + owner \* OWN\] = 0;//
store reset empties one	/pub fn reset/,/^}/s/for owner in 0..2/for owner in 0..1/
store reset looks at no list	/pub fn reset/,/^}/s/if (0..2).any(|owner| read(owner, list, tiles, bytes).is_err()) {/if !laid(list, tiles, bytes) {/
store reset looks at one list	/pub fn reset/,/^}/s/(0..2).any/(0..1).any/
store reset looks at the other list	/pub fn reset/,/^}/s/(0..2).any/(1..2).any/
store length off by one	s/(0, block.len())/(0, block.len() + 1)/
step runs two passes	s/^        pass(n, q.edition.*/&&/
step forgets tst1	/left(&v, &d, &e, work, result);/{n;s/Run { answer/Run { tst1: 0.0, answer/}
step forgets f	/left(&v, &d, &e, work, result);/{n;s/Run { answer/Run { f: 0.0, answer/}
step counts from 0	/left(&v, &d, &e, work, result);/{n;s/Run { answer/Run { count: 0, answer/}
step counts passes over all l	s/^        q.passes = 0;//
step never uses up the limit	s/} else if q.passes == q.limit {/} else if q.passes > q.limit {/
step fills nothing at its end	/^fn ended/,/^}/s/result.fill(0.0);//
step finishes unsorted	s/^    sort(n, &mut v, &mut d);//
step refusal 13 before 6	s/return Some(told(6, place, 0));/return Some(told(13, 0, 0));/
step refusal not of a finish too early	s/if q.l < q.n {$/if false {/
step refusal not of e	s/ && first_bad(&work\[q.l..\]).is_none()//
step refusal not of d	s/first_bad(&result\[q.l..q.n\]).is_none() && //
step refusal not of the last e	s/ && work\[q.n - 1\] == 0.0//
step refusal of tst1 0	s/q.tst1 >= 0.0/q.tst1 > 0.0/
step refusal not of m	s/ && q.m < q.n / /
step refusal not of the count	s/ && q.count <= q.l \* q.limit + q.passes//
step refusal not of the index	s/ && q.index == 0//
step refusal looks at ended runs	/^pub fn step/,/^}/s/if q.stop != 0 {/if q.stop > 1 {/
tally last of equals leads	s/if passes > tally.most {/if passes >= tally.most {/
tally first counted from 1	s/(passes, tally.tiles);/(passes, tally.tiles + 1);/
tally 36 before 38	s/^    if answer >= /    if !tally.has_room() { return 36; }\n    if answer >= /
tally refused tile counted	s/        return 38;/        tally.tiles += 1;\n        return 38;/
tally total not updated	s/    tally.passes += passes;//
tally a tile too many	s/(self.tiles, TILES - 1)/(self.tiles, TILES)/
tally a tile too few	s/(self.tiles, TILES - 1)/(self.tiles, TILES - 2)/
tally answer 15 refused	s/answer >= tally.counts.len()/answer >= 15/
tally passes of 15,360 refused	s/|| passes > PASSES/|| passes >= PASSES/
tally passes of 15,361 taken	s/|| passes > PASSES/|| passes > PASSES + 1/
tally a count not looked at	s/chain(self.counts.map(|count| (count, TILES)))/chain(self.counts[..15].iter().map(|\&count| (count, TILES)))/
tally count of 65,536 refused	s/(count, TILES)/(count, TILES - 1)/
tally total not looked at	s/ (self.passes, TILES \* PASSES),//
tally most not looked at	s/ (self.most, PASSES),//
tally first not looked at	s/, (self.first, TILES - 1)\]/]/
lanczos one round	s/for _round in 0..2/for _round in 0..1/
lanczos not against v	s/.chain(\[&v\])//
lanczos last beta forgotten	s/scaled_add(&mut w, -betas\[step - 1\], before);//
lanczos start not divided	s/if norm > f64::EPSILON { divided(start, norm) }/if norm > f64::EPSILON { start.to_vec() }/
lanczos start by >=	s/if norm > f64::EPSILON { divided(start/if norm >= f64::EPSILON { divided(start/
lanczos start of ones	s/vec!\[1.0 \/ (n as f64).sqrt(); n\]/vec![1.0; n]/
lanczos 1e-12 by <	s/if beta <= 1e-12/if beta < 1e-12/
lanczos stops at EPSILON	s/if beta <= 1e-12/if beta <= f64::EPSILON/
lanczos beta not finite ends quietly	s/let beta = finite(dot(&w, &w).sqrt(), 5, step)?;/let beta = dot(\&w, \&w).sqrt(); if !beta.is_finite() { break; }/
lanczos alpha not looked at	s/let alpha = finite(dot(&v, &w), 4, step)?;/let alpha = dot(\&v, \&w);/
lanczos start norm not looked at	s/let norm = finite(dot(start, start).sqrt(), 3, 0)?;/let norm = dot(start, start).sqrt();/
lanczos step counted from 1	s/4, step)/4, step + 1)/;s/5, step)/5, step + 1)/
lanczos alpha and beta exchanged	s/4, step)/9, step)/;s/5, step)/4, step)/;s/9, step)/5, step)/
lanczos 8 given for a NaN	s/Err(Answer { index, ..refusal })/Err(Answer { index, answer: 8, ..refusal })/
lanczos values ascending	s/inner\[j\].partial_cmp(&inner\[i\])/inner[i].partial_cmp(\&inner[j])/
lanczos place 0 on success	s/Answer { place: order.len(), ..said }/said/
lanczos place always k	s/Answer { place: order.len(), ..said }/Answer { place: k, ..said }/
lanczos 15 before 14	s/if n == 0 {/if n == 0 \&\& k == 0 {/
lanczos 14 not given	s/if n == 0 {/if false {/
lanczos k of n refused	s/if k > n {/if k >= n {/
lanczos edition before limit	s/if limit < 1 || limit > MOST {/if (1..=2).contains(\&edition) \&\& (limit < 1 || limit > MOST) {/
lanczos edition 3 taken	s/if edition != 1 \&\& edition != 2 {/if edition != 1 \&\& edition != 2 \&\& edition != 3 {/
lanczos inner edition 1	s/symmetric_eigen(m, limit, edition,/symmetric_eigen(m, limit, 1,/
lanczos inner limit 60	s/symmetric_eigen(m, limit, edition,/symmetric_eigen(m, 60, edition,/
lanczos work before start	s/(start.len(), n), (work.len(), work_length(n, k))/(work.len(), work_length(n, k)), (start.len(), n)/
lanczos start before matrix for 7	s/\[matrix, start\].concat()/[start, matrix].concat()/
lanczos lower triangle alone	s/first_bad(&\[matrix, start\].concat())/first_bad(\&[\&(0..n * n).map(|c| if c % n > c \/ n { 0.0 } else { matrix[c] }).collect::<Vec<f64>>(), start].concat())/
lanczos work not cleared	s/^    work.fill(0.0);//
lanczos answer not cleared	s/^    answer.fill(0.0);//
lanczos arrays cleared on 14	s/return told(14, 0, 0);/answer.fill(0.0); return told(14, 0, 0);/
lanczos arrays cleared on 15	s/return told(15, 0, 0);/answer.fill(0.0); return told(15, 0, 0);/
lanczos steps of 2k	s/(2 \* k + 20).min(n)/(2 * k + 2).min(n)/
lanczos work one less	s/ + 4 \* s$/ + 4 * s - 1/
lanczos rows not divided	s/if norm > f64::EPSILON { divided(&ritz, norm) } else { ritz }/ritz/
lanczos ritz summed downwards	s/for j in 0..m {$/for j in (0..m).rev() {/
lanczos dot summed downwards	/^fn dot/,/^}/s/for i in 0..x.len()/for i in (0..x.len()).rev()/
lanczos vectors by columns	s/inner\[m + j \* m + c\]/inner[m + c * m + j]/
TABLE
exit $left
