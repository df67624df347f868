//! Gain and `svd` (docs/landings/11-gain.md): random matrices and 2^k times each. Every operation of both runs is watched, in document 000's own text and in the patched one, over a
//! number that notes what comes out; where what the theorem asks held in both, what it says is compared. And the same of the patched `symmetric_eigen` (T48), and of samples whose
//! covariance it is called with (T49).

use oracle::cases::{Random, numbers, two};
use oracle::{patched as unwatched, plain};
use std::cell::Cell;
use std::cmp::Ordering;
use std::ops::{Add, AddAssign, Div, DivAssign, Mul, Neg, Sub, SubAssign};

/// A number, and the power of the gain that it carries: 1 for the matrix, 2 for a square, 0 for a rotation.
#[derive(Clone, Copy)]
pub struct Watched(f64, u32);

/// What was seen in a run: of all numbers given or computed, and of those that the theorem asks of, which carry a power of the gain.
#[derive(Clone, Copy, Default, PartialEq, Debug)]
struct Seen {
    operations: u64,
    all: Bad,
    asked: Bad,
}

/// Not finite; not zero and not above 2^-1022 in magnitude; zero as the product or quotient of nonzero numbers.
#[derive(Clone, Copy, Default, PartialEq, Debug)]
struct Bad {
    over: bool,
    small: bool,
    lost: bool,
}

impl Bad {
    fn none(self) -> bool {
        self == Bad::default()
    }
    fn and(self, other: Bad) -> Bad {
        Bad { over: self.over || other.over, small: self.small || other.small, lost: self.lost || other.lost }
    }
}

thread_local! {
    static SEEN: Cell<Seen> = Cell::default();
}

fn bad(x: f64, lost: bool) -> Bad {
    Bad { over: !x.is_finite(), small: x != 0.0 && x.abs() <= f64::MIN_POSITIVE, lost }
}

fn noted(x: f64, power: u32, lost: bool) -> Watched {
    let mut seen = SEEN.get();
    seen.operations += 1;
    seen.all = seen.all.and(bad(x, lost));
    if power > 0 {
        seen.asked = seen.asked.and(bad(x, lost));
    }
    SEEN.set(seen);
    Watched(x, power)
}

/// A number of the program's text.
fn literal(x: f64) -> Watched {
    Watched(x, 0)
}

/// A number of the matrix: given, so asked by the request, and not by the theorem.
fn given(x: f64) -> Watched {
    let mut seen = SEEN.get();
    seen.all = seen.all.and(bad(x, false));
    SEEN.set(seen);
    Watched(x, 1)
}

impl Watched {
    const EPSILON: Watched = Watched(f64::EPSILON, 0);
    fn abs(self) -> Watched {
        Watched(self.0.abs(), self.1)
    }
    fn sqrt(self) -> Watched {
        assert!(self.1 % 2 == 0);
        noted(self.0.sqrt(), self.1 / 2, false)
    }
    fn is_finite(self) -> bool {
        self.0.is_finite()
    }
    fn is_nan(self) -> bool {
        self.0.is_nan()
    }
}

/// The power of both: 0 is of every power, as where a sum starts from it.
fn level(a: Watched, b: Watched) -> u32 {
    match (a.0 == 0.0, b.0 == 0.0) {
        (true, false) => b.1,
        (false, true) => a.1,
        (zero, _) => {
            assert!(zero || a.1 == b.1);
            a.1.max(b.1)
        }
    }
}

/// hypot, as one operation.
fn by_edition(edition: usize, x: Watched, y: Watched) -> Watched {
    noted(oracle::hypot::by_edition(edition, x.0, y.0), level(x, y), false)
}

impl Add for Watched {
    type Output = Watched;
    fn add(self, b: Watched) -> Watched {
        noted(self.0 + b.0, level(self, b), false)
    }
}

impl Sub for Watched {
    type Output = Watched;
    fn sub(self, b: Watched) -> Watched {
        noted(self.0 - b.0, level(self, b), false)
    }
}

impl Mul for Watched {
    type Output = Watched;
    fn mul(self, b: Watched) -> Watched {
        let x = self.0 * b.0;
        noted(x, self.1 + b.1, x == 0.0 && self.0 != 0.0 && b.0 != 0.0)
    }
}

impl Div for Watched {
    type Output = Watched;
    fn div(self, b: Watched) -> Watched {
        let x = self.0 / b.0;
        noted(x, self.1.saturating_sub(b.1), x == 0.0 && self.0 != 0.0)
    }
}

impl AddAssign for Watched {
    fn add_assign(&mut self, b: Watched) {
        *self = *self + b;
    }
}

impl SubAssign for Watched {
    fn sub_assign(&mut self, b: Watched) {
        *self = *self - b;
    }
}

impl DivAssign for Watched {
    fn div_assign(&mut self, b: Watched) {
        *self = *self / b;
    }
}

impl Neg for Watched {
    type Output = Watched;
    fn neg(self) -> Watched {
        Watched(-self.0, self.1)
    }
}

// Of numbers with one power, or beside 0.
impl PartialEq for Watched {
    fn eq(&self, b: &Watched) -> bool {
        level(*self, *b);
        self.0 == b.0
    }
}

impl PartialOrd for Watched {
    fn partial_cmp(&self, b: &Watched) -> Option<Ordering> {
        level(*self, *b);
        self.0.partial_cmp(&b.0)
    }
}

/// Document 000's `svd`, its own text with the number's name and its literals replaced when this is built.
#[allow(dead_code)]
mod document {
    use super::{Watched, literal};
    include!(env!("WATCHED_NDARRAY"));
    include!(env!("WATCHED_DOCUMENT"));
}

/// The patched one likewise, and the patched `symmetric_eigen`.
#[allow(dead_code)]
mod patched {
    use super::{Watched, by_edition, literal};
    include!(env!("WATCHED_PATCHED"));
}

struct Call {
    m: usize,
    n: usize,
    flags: [usize; 2],
    limit: usize,
    work_len: usize,
    result_len: usize,
}

struct Outcome {
    answer: unwatched::Answer,
    work: Vec<f64>,
    result: Vec<f64>,
}

fn same(x: &[f64], y: &[f64]) -> bool {
    x.len() == y.len() && x.iter().zip(y).all(|(x, y)| x.to_bits() == y.to_bits())
}

impl Call {
    /// What the arrays hold before the call.
    fn before(&self) -> (Vec<f64>, Vec<f64>) {
        (vec![7.5; self.work_len], vec![-7.5; self.result_len])
    }

    fn outcome(&self, a: &[f64]) -> Outcome {
        let (mut work, mut result) = self.before();
        let answer = unwatched::svd(self.m, self.n, self.flags[0], self.flags[1], self.limit, a, &mut work, &mut result);
        Outcome { answer, work, result }
    }

    /// The same call watched. Its outcome is the same bits, and where it is done, so is document 000's, by the same operations.
    fn watched(&self, a: &[f64], done: &Outcome) -> Seen {
        SEEN.set(Seen::default());
        let cells: Vec<Watched> = a.iter().map(|&x| given(x)).collect();
        let old = |x: Vec<f64>| x.into_iter().map(literal).collect::<Vec<_>>();
        let (work, result) = self.before();
        let (mut work, mut result) = (old(work), old(result));
        let answer = patched::svd(self.m, self.n, self.flags[0], self.flags[1], self.limit, &cells, &mut work, &mut result);
        let seen = SEEN.get();
        let bare = |x: &[Watched]| x.iter().map(|x| x.0).collect::<Vec<_>>();
        assert_eq!([answer.answer, answer.place, answer.index, answer.count], [done.answer.answer, done.answer.place, done.answer.index, done.answer.count]);
        assert!(same(&bare(&work), &done.work) && same(&bare(&result), &done.result));

        if answer.answer == 0 {
            SEEN.set(Seen::default());
            let cells: Vec<Watched> = a.iter().map(|&x| given(x)).collect();
            let matrix = document::Array2::from_shape_fn((self.m, self.n), |(i, j)| cells[i * self.n + j]);
            let svd = document::svd(&matrix, self.flags[0] != 0, self.flags[1] != 0);
            assert_eq!(SEEN.get(), seen);
            let values: Vec<f64> = (0..svd.singular_values.len()).map(|i| svd.singular_values[i].0).collect();
            assert!(same(&values, &done.result[..values.len()]));
            let plain = plain::platform::svd_cells(self.m, self.n, self.flags[0] != 0, self.flags[1] != 0, a);
            assert!(same(&plain, &done.result));
        }
        seen
    }
}

/// x times 2^k, or nothing where that is no double.
fn scaled(x: f64, k: i64) -> Option<f64> {
    let by = |x: f64, mut k: i64| {
        let mut y = x;
        while k != 0 {
            let part = k.clamp(-1000, 1000);
            y *= two(part);
            k -= part;
        }
        y
    };
    let y = by(x, k);
    (by(y, -k).to_bits() == x.to_bits() && y.is_finite()).then_some(y)
}

/// What the theorem says.
fn keeps(call: &Call, k: i64, x: &Outcome, y: &Outcome) -> bool {
    let r = call.m.min(call.n);
    let plus_zero = |cells: &[f64]| cells.iter().all(|x| x.to_bits() == 0);
    x.answer == y.answer
        && match x.answer.answer {
            0 => {
                let values: Option<Vec<f64>> = x.result[..r].iter().map(|&v| scaled(v, k)).collect();
                values.is_some_and(|v| same(&v, &y.result[..r])) && same(&x.result[r..], &y.result[r..]) && plus_zero(&x.work) && plus_zero(&y.work)
            }
            1..=6 => [x, y].iter().all(|o| same(&o.work, &call.before().0) && same(&o.result, &call.before().1)),
            _ => [x, y].iter().all(|o| plus_zero(&o.work) && plus_zero(&o.result)),
        }
}

fn random_call(rng: &mut Random, largest: u64) -> Call {
    let (m, n) = (rng.below(largest + 1) as usize, rng.below(largest + 1) as usize);
    let flags = [rng.below(2) as usize, rng.below(2) as usize];
    let limit = if rng.one_in(60) { rng.of(&[0, 61]) } else if rng.one_in(3) { 60 } else { 1 + rng.below(8) as usize };
    let (r, tall) = (m.min(n), m.max(n));
    let other = |rng: &mut Random, length: usize| if rng.one_in(90) { length + 1 } else { length };
    let work_len = other(rng, tall * r + r * r + r);
    let result_len = other(rng, r + flags[0] * m * r + flags[1] * r * n);
    Call { m, n, flags, limit, work_len, result_len }
}

fn random_gain(rng: &mut Random) -> i64 {
    let most = rng.of(&[4, 40, 200, 600, 1100]);
    rng.below(2 * most + 1) as i64 - most as i64
}

/// Every number of both is zero or from 2^-250 to 2^250 in magnitude.
fn moderate(a: &[f64], b: &[f64]) -> bool {
    a.iter().chain(b).all(|x| *x == 0.0 || (two(-250)..=two(250)).contains(&x.abs()))
}

fn svd(rng: &mut Random, cases: u64, largest: u64) -> bool {
    let (mut no_double, mut operations, mut by_request, mut by_theorem, mut broken, mut moved) = (0u64, 0u64, 0u64, 0u64, 0u64, 0u64);
    let mut answers = [0u64; 11];
    let mut wide = 0u64;
    let mut alone = [0u64; 3];
    let mut near = [0u64; 2];
    for _ in 0..cases {
        let call = random_call(rng, largest);
        let a = if rng.one_in(2) { numbers(rng, call.m, call.n) } else { (0..call.m * call.n).map(|_| rng.unit()).collect() };
        let k = random_gain(rng);
        let Some(b) = a.iter().map(|&x| scaled(x, k)).collect::<Option<Vec<f64>>>() else {
            no_double += 1;
            continue;
        };
        let (x, y) = (call.outcome(&a), call.outcome(&b));
        let (p, q) = (call.watched(&a, &x), call.watched(&b, &y));
        operations += p.operations + q.operations;
        let kept = keeps(&call, k, &x, &y);
        let asked = p.asked.and(q.asked);
        assert!(!p.all.and(q.all).none() || asked.none(), "the theorem asks no more than the request");
        by_request += p.all.and(q.all).none() as u64;
        if moderate(&a, &b) {
            near[0] += 1;
            near[1] += asked.none() as u64;
        }
        if asked.none() {
            by_theorem += 1;
            answers[x.answer.answer] += 1;
            wide += (call.m < call.n) as u64;
            if !kept {
                broken += 1;
                println!("moved: {} by {}, limit {}, k = {k}, {a:?}", call.m, call.n, call.limit);
            }
        } else if !kept {
            moved += 1;
            // which clause alone was missed
            let one = [Bad { over: true, ..Bad::default() }, Bad { small: true, ..Bad::default() }, Bad { lost: true, ..Bad::default() }];
            (0..3).for_each(|i| alone[i] += (asked == one[i]) as u64);
        }
    }
    let run = cases - no_double;
    println!("svd: {cases} matrices up to {largest} by {largest}; {no_double} are no doubles times 2^k, {run} were run twice, {operations} operations watched");
    println!("what the request asks held in {by_request}, what the theorem asks in {by_theorem}, {wide} of them with m < n; by answer 0 to 10: {answers:?}");
    println!("of those {broken} moved; of the other {} runs {moved}, with an overflow alone {}, a number too small alone {}, a product lost alone {}", run - by_theorem, alone[0], alone[1], alone[2]);
    println!("with every number 0 or from 2^-250 to 2^250 in both: {}, what the theorem asks held in {}", near[0], near[1]);
    broken == 0 && by_request > 0
}

/// A call of the patched `symmetric_eigen`, watched too, hypot being one operation; and what was missed of what T48 asks (of the last l the bound is asked here, and not there).
fn eigen_outcome(n: usize, limit: usize, edition: usize, a: &[f64]) -> (Outcome, Bad) {
    let (mut work, mut result) = (vec![7.5; n], vec![-7.5; n + n * n]);
    let answer = unwatched::symmetric_eigen(n, limit, edition, a, &mut work, &mut result);
    SEEN.set(Seen::default());
    let cells: Vec<Watched> = a.iter().map(|&x| given(x)).collect();
    let (mut watched_work, mut watched) = (vec![literal(7.5); n], vec![literal(-7.5); n + n * n]);
    let told = patched::symmetric_eigen(n, limit, edition, &cells, &mut watched_work, &mut watched);
    assert_eq!([told.answer, told.place, told.index, told.count], [answer.answer, answer.place, answer.index, answer.count]);
    assert!(same(&watched.iter().map(|x| x.0).collect::<Vec<_>>(), &result));
    (Outcome { answer, work, result }, SEEN.get().asked)
}

/// Pairs of calls of `symmetric_eigen`: how many were run, where what is asked held, by answer, and how many of those and of the others moved.
#[derive(Default)]
struct Pairs {
    run: u64,
    held: u64,
    answers: [u64; 11],
    broken: u64,
    moved: u64,
}

impl Pairs {
    /// The matrix a, and b, which is 2^k times it.
    fn add(&mut self, n: usize, limit: usize, edition: usize, k: i64, a: &[f64], b: &[f64]) {
        let ((x, p), (y, q)) = (eigen_outcome(n, limit, edition, a), eigen_outcome(n, limit, edition, b));
        // n values and n * n numbers behind them: laid out as an svd's with one factor
        let call = Call { m: n, n, flags: [1, 0], limit, work_len: n, result_len: n + n * n };
        let kept = keeps(&call, k, &x, &y);
        self.run += 1;
        if p.and(q).none() {
            self.held += 1;
            self.answers[x.answer.answer] += 1;
            self.broken += !kept as u64;
        } else {
            self.moved += !kept as u64;
        }
    }

    fn tell(&self, what: &str) -> bool {
        let Pairs { run, held, answers, broken, moved } = self;
        println!("{what}: {run} run twice; what the theorem asks held in {held}, by answer 0 to 10: {answers:?}; of those {broken} moved, of the others {moved}");
        *broken == 0 && *held > 0
    }
}

fn random_eigen(rng: &mut Random, largest: u64) -> (usize, usize, usize) {
    (1 + rng.below(largest) as usize, rng.of(&[1, 2, 3, 30, 60]), 1 + rng.below(2) as usize)
}

fn symmetric_eigen(rng: &mut Random, cases: u64, largest: u64) -> bool {
    let mut pairs = Pairs::default();
    for _ in 0..cases {
        let (n, limit, edition) = random_eigen(rng, largest);
        let a = if rng.one_in(2) { numbers(rng, n, n) } else { (0..n * n).map(|_| rng.unit()).collect() };
        let k = random_gain(rng);
        let Some(b) = a.iter().map(|&x| scaled(x, k)).collect::<Option<Vec<f64>>>() else { continue };
        pairs.add(n, limit, edition, k, &a, &b);
    }
    pairs.tell("symmetric_eigen")
}

/// The covariance of n bands of samples, which are so few that no entry is over 2^53.
fn covariance(n: usize, samples: &[i64]) -> Vec<f64> {
    let long = samples.len() / n;
    let bands: Vec<&[i64]> = samples.chunks(long).collect();
    let sum = |x: &[i64]| x.iter().sum::<i64>();
    let entry = |x: &[i64], y: &[i64]| long as i64 * x.iter().zip(y).map(|(x, y)| x * y).sum::<i64>() - sum(x) * sum(y);
    let entries = bands.iter().flat_map(|x| bands.iter().map(move |y| entry(x, y)));
    entries.inspect(|z| assert!(z.abs() <= 1 << 53)).map(|z| z as f64).collect()
}

/// Up to 40 samples a band and 2^k times them, of 16 bits both: their covariances, and `symmetric_eigen` of those. In half of them each band leans on the first, as an image's do.
fn path(rng: &mut Random, cases: u64, largest: u64) -> bool {
    let mut pairs = Pairs::default();
    for _ in 0..cases {
        let (n, limit, edition) = random_eigen(rng, largest);
        let bits = 1 + rng.below(15);
        let k = 1 + rng.below(16 - bits) as i64;
        let long = 1 + rng.below(40) as usize;
        let mut samples: Vec<i64> = (0..n * long).map(|_| rng.below(1 << bits) as i64 - (1 << (bits - 1))).collect();
        if rng.one_in(2) {
            for i in long..n * long {
                samples[i] = (3 * samples[i % long] + samples[i]) / 4;
            }
        }
        let louder: Vec<i64> = samples.iter().map(|&x| x << k).collect();
        let (a, b) = (covariance(n, &samples), covariance(n, &louder));
        assert!(a.iter().zip(&b).all(|(&x, &y)| scaled(x, 2 * k) == Some(y)));
        pairs.add(n, limit, edition, 2 * k, &a, &b);
    }
    pairs.tell("covariance, then symmetric_eigen")
}

fn main() {
    let words: Vec<u64> = std::env::args().skip(1).map(|w| w.parse().expect("a number")).collect();
    let (seed, cases, largest) = (words[0], words[1], words[2]);
    let mut rng = Random::new(seed);
    let done = [svd(&mut rng, cases, largest), symmetric_eigen(&mut rng, cases, largest), path(&mut rng, cases, largest)];
    if done != [true; 3] {
        std::process::exit(1);
    }
}
