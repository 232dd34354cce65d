//! The workloads of the program `bench`, in its order and on the same inputs, by the Rust crate. Beside what that prints
//! of each, a call that reports a pair there is timed twice here: with the counts that the crate needs to tell as much,
//! and alone. BIT_SET_SRC, when this is built, is the folder that holds the crate's bit_set.rs and idx.rs.

#[allow(dead_code)]
mod shim;

#[allow(dead_code)]
mod idx {
    include!(concat!(env!("BIT_SET_SRC"), "/idx.rs"));
}

#[allow(dead_code)]
mod bit_set {
    include!(concat!(env!("BIT_SET_SRC"), "/bit_set.rs"));
}

use bit_set::DenseBitSet;
use idx::Idx;
use shim::IndexVec;
use shim::static_assert_size;
use std::hint::black_box;
use std::time::Instant;

const HOUR: usize = 158_760_000;
const ADVERT: usize = 1_323_000;
const ADVERT_STEP: usize = 15_876_000;
const MILLION: usize = 1_000_000;
const NAMED: usize = 100_000;
const RISING_STEP: usize = 10;
const LOOSE_STEP: usize = 100_000;
const COLD: usize = 12_000_000;

/// The program's linear congruential generator.
struct Random {
    state: u64,
}

impl Random {
    fn below(&mut self, n: usize) -> usize {
        self.state = self
            .state
            .wrapping_mul(6_364_136_223_846_793_005)
            .wrapping_add(1_442_695_040_888_963_407);
        (self.state >> 33) as usize % n
    }
}

struct Bed {
    own: DenseBitSet<usize>,
    start: DenseBitSet<usize>,
    other: DenseBitSet<usize>,
    random: Vec<usize>,
    rising: Vec<usize>,
    places: Vec<usize>,
    cold: Vec<usize>,
}

impl Bed {
    fn random(percent: usize) -> Bed {
        let mut random = Random { state: 1 };
        let start = random_mask(&mut random, percent);
        let other = random_mask(&mut random, percent);
        Bed {
            own: empty_mask(MILLION),
            random: (0..NAMED).map(|_| random.below(MILLION)).collect(),
            rising: (0..NAMED).map(|k| k * RISING_STEP).collect(),
            places: written_zeros(start.count()),
            cold: Vec::new(),
            start,
            other,
        }
    }

    fn adverts() -> Bed {
        let start = advert_mask();
        Bed {
            own: empty_mask(HOUR),
            random: Vec::new(),
            rising: Vec::new(),
            places: written_zeros(start.count()),
            cold: written_zeros(COLD),
            start,
            other: advert_mask(),
        }
    }
}

/// So many zeros in memory that has been written to. Memory that is taken as zeros and that nothing has written is one
/// page of them, which costs nothing to read.
fn written_zeros(n: usize) -> Vec<usize> {
    let mut zeros = vec![1; n];
    black_box(&mut zeros).fill(0);
    zeros
}

/// An empty mask, in memory that has been written to.
fn empty_mask(domain_size: usize) -> DenseBitSet<usize> {
    let mut mask = DenseBitSet::new_filled(black_box(domain_size));
    black_box(&mut mask).clear();
    mask
}

fn random_mask(random: &mut Random, percent: usize) -> DenseBitSet<usize> {
    let mut mask = empty_mask(MILLION);
    for index in 0..MILLION {
        if random.below(100) < percent {
            mask.insert(index);
        }
    }
    mask
}

fn advert_mask() -> DenseBitSet<usize> {
    let mut mask = empty_mask(HOUR);
    for first in (0..HOUR).step_by(ADVERT_STEP) {
        for index in first..first + ADVERT {
            mask.insert(index);
        }
    }
    mask
}

#[derive(Clone, Copy)]
struct Plan {
    rounds: usize,
    timed: bool,
}

type Prepare = fn(&mut Bed);

/// The time of the quickest round, and the sum of the answers.
fn quickest<R>(
    plan: Plan,
    bed: &mut Bed,
    prepare: Prepare,
    mut work: impl FnMut(&mut Bed) -> R,
    mut answer: impl FnMut(R),
) -> u128 {
    let mut least = u128::MAX;
    for _ in 0..plan.rounds {
        prepare(bed);
        black_box(sum(&bed.cold));
        let start = Instant::now();
        let got = black_box(work(black_box(&mut *bed)));
        least = least.min(start.elapsed().as_nanos());
        answer(got);
    }
    least
}

fn sum(numbers: &[usize]) -> usize {
    numbers.iter().fold(0, |total, n| total.wrapping_add(*n))
}

fn tell(plan: Plan, name: &str, bed: &Bed, answers: usize, times: &[u128]) {
    let listed = sum(&bed.places);
    print!("{name}: answers {answers}, members {}, listed {listed}", bed.own.count());
    if plan.timed {
        for time in times {
            print!(", ns {time}");
        }
    }
    println!();
}


/// A workload that the crate answers as it stands.
fn measure(
    plan: Plan,
    name: &str,
    bed: &mut Bed,
    prepare: Prepare,
    work: impl Fn(&mut Bed) -> usize,
) {
    let mut answers = 0usize;
    let time = quickest(plan, bed, prepare, work, |got| answers = answers.wrapping_add(got));
    tell(plan, name, bed, answers, &[time]);
}

/// A workload for which the program reports how many entered and how many left. The sum of reports is worked out from the
/// masks before and after.
fn measure_pair(plan: Plan, name: &str, bed: &mut Bed, prepare: Prepare, work: impl Fn(&mut Bed)) {
    let counted = quickest(
        plan,
        bed,
        prepare,
        |bed| {
            let before = bed.own.count();
            work(bed);
            (before, bed.own.count())
        },
        |_| (),
    );
    let alone = quickest(plan, bed, prepare, &work, |_| ());
    prepare(bed);
    let mut left = bed.own.clone();
    let mut entered_not = left.clone();
    work(bed);
    left.subtract(&bed.own);
    entered_not.intersect(&bed.own);
    let entered = bed.own.count() - entered_not.count();
    let weight = entered.wrapping_add(left.count().wrapping_mul(1_000_003));
    tell(plan, name, bed, weight.wrapping_mul(plan.rounds), &[counted, alone]);
}

fn start(bed: &mut Bed) {
    bed.own.clone_from(&bed.start);
}

fn clear(bed: &mut Bed) {
    bed.own.clear();
}

fn fill(bed: &mut Bed) {
    bed.own.insert_all();
}

fn insert_each(mask: &mut DenseBitSet<usize>, indices: &[usize]) -> usize {
    let mut total = 0;
    for index in indices {
        total += usize::from(mask.insert(*index));
    }
    total
}

fn remove_each(mask: &mut DenseBitSet<usize>, indices: &[usize]) -> usize {
    let mut total = 0;
    for index in indices {
        total += usize::from(mask.remove(*index));
    }
    total
}

fn contains_each(mask: &DenseBitSet<usize>, indices: &[usize]) -> usize {
    let mut total = 0;
    for index in indices {
        total += usize::from(mask.contains(*index));
    }
    total
}

fn contains_loose(bed: &mut Bed) -> usize {
    let mut total = 0;
    for index in &bed.random {
        total += usize::from(bed.own.contains_loose(*index + LOOSE_STEP));
    }
    total
}

fn list(bed: &mut Bed) -> usize {
    let mut count = 0;
    for (place, index) in bed.places.iter_mut().zip(bed.own.iter()) {
        *place = index;
        count += 1;
    }
    count
}

/// A listing, timed twice: into the places, and with the iterator alone, whose indices are added up.
fn measure_list(plan: Plan, bed: &mut Bed) {
    let sum = |bed: &mut Bed| bed.own.iter().fold(0usize, |total, n| total.wrapping_add(n));
    let alone = quickest(plan, bed, start, sum, |_| ());
    let mut answers = 0usize;
    let placed = quickest(plan, bed, start, list, |got| answers = answers.wrapping_add(got));
    tell(plan, "list", bed, answers, &[placed, alone]);
}

fn run_singles(plan: Plan, bed: &mut Bed) {
    measure(plan, "insert, random order", bed, clear, |b| insert_each(&mut b.own, &b.random));
    measure(plan, "insert, rising", bed, clear, |b| insert_each(&mut b.own, &b.rising));
    measure(plan, "remove, random order", bed, fill, |b| remove_each(&mut b.own, &b.random));
    measure(plan, "remove, rising", bed, fill, |b| remove_each(&mut b.own, &b.rising));
    measure(plan, "contains, random order", bed, start, |b| contains_each(&b.own, &b.random));
    measure(plan, "contains, rising", bed, start, |b| contains_each(&b.own, &b.rising));
    measure(plan, "contains_loose, random order", bed, start, contains_loose);
}

fn run_whole(plan: Plan, bed: &mut Bed) {
    measure(plan, "count", bed, start, |b| b.own.count());
    measure_list(plan, bed);
    measure(plan, "superset of itself", bed, start, |b| usize::from(b.own.superset(&b.start)));
    measure_pair(plan, "insert_all", bed, start, fill);
    measure_pair(plan, "clear", bed, start, clear);
}

fn union(bed: &mut Bed) {
    black_box(bed.own.union(&bed.other));
}

fn intersect(bed: &mut Bed) {
    black_box(bed.own.intersect(&bed.other));
}

fn subtract(bed: &mut Bed) {
    black_box(bed.own.subtract(&bed.other));
}

fn clone_from(bed: &mut Bed) {
    bed.own.clone_from(&bed.other);
}

fn run_combines(plan: Plan, bed: &mut Bed) {
    measure_pair(plan, "union", bed, start, union);
    measure_pair(plan, "intersect", bed, start, intersect);
    measure_pair(plan, "subtract", bed, start, subtract);
    measure_pair(plan, "clone_from", bed, start, clone_from);
}

fn run_adverts(plan: Plan, bed: &mut Bed) {
    measure_pair(plan, "union, adverts there", bed, start, union);
    measure_pair(plan, "union, adverts on empty", bed, clear, union);
    measure_pair(plan, "intersect, adverts there", bed, start, intersect);
    measure_pair(plan, "intersect, adverts with full", bed, fill, intersect);
    measure_pair(plan, "subtract, adverts there", bed, start, subtract);
    measure_pair(plan, "subtract, adverts from empty", bed, clear, subtract);
    measure_pair(plan, "clone_from, adverts there", bed, start, clone_from);
    measure_pair(plan, "clone_from, adverts on empty", bed, clear, clone_from);
}

fn main() {
    let args: Vec<String> = std::env::args().skip(1).collect();
    let plan = Plan {
        rounds: args.first().map_or(2, |word| word.parse().expect("a number of rounds")),
        timed: args.get(1).is_some_and(|word| word == "time"),
    };
    for percent in [50, 1] {
        let mut bed = Bed::random(percent);
        println!("a million indices, {percent} % of them members");
        run_singles(plan, &mut bed);
        run_whole(plan, &mut bed);
        run_combines(plan, &mut bed);
    }
    let mut bed = Bed::adverts();
    println!("an hour of samples, ten adverts of 30 seconds");
    run_whole(plan, &mut bed);
    run_adverts(plan, &mut bed);
}
