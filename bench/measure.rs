//! Times in steady state, and the greatest heap of a call.

use std::ffi::c_void;
use std::sync::atomic::{AtomicBool, AtomicUsize, Ordering::Relaxed};
use std::time::{Duration, Instant};

/// How long one repeat takes at least.
const REPEAT: Duration = Duration::from_millis(20);

/// How many repeats there are.
const REPEATS: usize = 21;

fn time_of(calls: u32, work: &mut impl FnMut()) -> Duration {
    let start = Instant::now();
    for _ in 0..calls {
        work();
    }
    start.elapsed()
}

// How many calls fill a repeat; to find it warms the work up.
fn calls_of(work: &mut impl FnMut()) -> u32 {
    let mut calls = 1;
    while time_of(calls, work) < REPEAT {
        calls *= 2;
    }
    calls
}

/// The median of some numbers, and their quartiles.
pub struct Spread {
    pub low: f64,
    pub middle: f64,
    pub high: f64,
}

/// The spread of some numbers, of which there is one at least.
pub fn spread_of(numbers: &[f64]) -> Spread {
    let mut sorted = numbers.to_vec();
    sorted.sort_by(f64::total_cmp);
    let at = |quarters: usize| sorted[(sorted.len() - 1) * quarters / 4];
    Spread { low: at(1), middle: at(2), high: at(3) }
}

/// Microseconds of one call of each work, repeat by repeat. The works take turns, so that what else the machine does
/// comes to all alike, and the repeats of two works can be compared one by one.
pub fn repeats<F: FnMut()>(works: impl Iterator<Item = F>) -> Vec<Vec<f64>> {
    let mut works: Vec<(F, u32, Vec<f64>)> = works
        .map(|mut work| {
            let calls = calls_of(&mut work);
            (work, calls, Vec::new())
        })
        .collect();
    for _ in 0..REPEATS {
        for (work, calls, times) in &mut works {
            times.push(time_of(*calls, work).as_secs_f64() * 1e6 / f64::from(*calls));
        }
    }
    works.into_iter().map(|(_, _, times)| times).collect()
}

static COUNTS: AtomicBool = AtomicBool::new(false);
static HELD: AtomicUsize = AtomicUsize::new(0);
static GREATEST: AtomicUsize = AtomicUsize::new(0);

unsafe extern "C" {
    fn __real_malloc(size: usize) -> *mut c_void;
    fn __real_realloc(block: *mut c_void, size: usize) -> *mut c_void;
    fn __real_free(block: *mut c_void);
    fn malloc_usable_size(block: *mut c_void) -> usize;
}

// Counts bytes taken and bytes given back.
fn note(taken: usize, given: usize) {
    let held = HELD.load(Relaxed) + taken - given;
    HELD.store(held, Relaxed);
    GREATEST.fetch_max(held, Relaxed);
}

// The linker's `--wrap` sends the calls of the program and its static libraries here.
#[unsafe(no_mangle)]
extern "C" fn __wrap_malloc(size: usize) -> *mut c_void {
    unsafe {
        let block = __real_malloc(size);
        if COUNTS.load(Relaxed) {
            note(malloc_usable_size(block), 0);
        }
        block
    }
}

// While a block moves, both places are held.
#[unsafe(no_mangle)]
extern "C" fn __wrap_realloc(block: *mut c_void, size: usize) -> *mut c_void {
    unsafe {
        if !COUNTS.load(Relaxed) {
            return __real_realloc(block, size);
        }
        let before = malloc_usable_size(block);
        let moved = __real_realloc(block, size);
        note(malloc_usable_size(moved), 0);
        note(0, before);
        moved
    }
}

#[unsafe(no_mangle)]
extern "C" fn __wrap_free(block: *mut c_void) {
    unsafe {
        if COUNTS.load(Relaxed) {
            note(0, malloc_usable_size(block));
        }
        __real_free(block);
    }
}

/// The greatest number of heap bytes held at once during a call that frees all it takes.
pub fn greatest_heap(work: impl FnOnce()) -> usize {
    HELD.store(0, Relaxed);
    GREATEST.store(0, Relaxed);
    COUNTS.store(true, Relaxed);
    work();
    COUNTS.store(false, Relaxed);
    assert_eq!(HELD.load(Relaxed), 0, "the call keeps memory");
    GREATEST.load(Relaxed)
}
