//! Times two builds of the proved library on the large trees, and on one whose figures stay exact, in one run: how much a change costs. `bench/ratio BEFORE.a AFTER.a` makes a shared library
//! of each archive and calls this with the two.

#[allow(dead_code)]
#[path = "../models.rs"]
mod models;

use std::env;
use std::ffi::{c_char, c_int, c_void, CString};
use std::hint::black_box;
use std::process::exit;
use std::time::{Duration, Instant};

const BUDGET: u64 = 1_000_000;
const LEAST_RUNS: usize = 15;
const LEAST_TIME: Duration = Duration::from_millis(1_500);
/// More values than any build writes.
const ROOM: usize = 64;
/// The values up to here are compared: those behind it are not in every build.
const STEPS_AT: usize = 6;
const RTLD_NOW: c_int = 2;

extern "C" {
    fn dlopen(name: *const c_char, flags: c_int) -> *mut c_void;
    fn dlsym(library: *mut c_void, name: *const c_char) -> *mut c_void;
}

type Assess = unsafe extern "C" fn(*const u32, usize, u64, *mut u64, *mut i32) -> u64;

/// The `bounds_assess` of a shared library.
fn loaded(path: &str) -> Assess {
    let name = CString::new(path).expect("a path without a zero byte");
    // SAFETY: both calls are handed texts that end with a zero; the symbol has this type in every build of the library.
    unsafe {
        let library = dlopen(name.as_ptr(), RTLD_NOW);
        let symbol =
            if library.is_null() { library } else { dlsym(library, c"bounds_assess".as_ptr()) };
        if symbol.is_null() {
            eprintln!("ratio: {path} is no shared library with bounds_assess");
            exit(2);
        }
        std::mem::transmute::<*mut c_void, Assess>(symbol)
    }
}

/// A call's answer, and how long it took in seconds.
fn call(assess: Assess, words: &[u32]) -> (u64, [u64; ROOM], f64) {
    let (mut values, mut powers) = ([0; ROOM], [0; ROOM]);
    let start = Instant::now();
    // SAFETY: the slice's pointer and length belong together, and both arrays have room for more than a build writes.
    let number = unsafe {
        assess(words.as_ptr(), words.len(), BUDGET, values.as_mut_ptr(), powers.as_mut_ptr())
    };
    let seconds = start.elapsed().as_secs_f64();
    black_box(powers);
    (number, values, seconds)
}

fn main() {
    let paths: Vec<String> = env::args().skip(1).collect();
    let [before, after] = paths.as_slice() else {
        eprintln!("usage: ratio BEFORE.so AFTER.so");
        exit(2);
    };
    let (before, after) = (loaded(before), loaded(after));
    println!("| model | steps | before, ns a step | after, ns a step | after / before |");
    println!("| --- | ---: | ---: | ---: | ---: |");
    for case in models::trees().into_iter().chain(models::exact()) {
        let words = case.words.as_slice();
        let (first, second) = (call(before, words), call(after, words));
        assert_eq!(
            (first.0, &first.1[..=STEPS_AT]),
            (second.0, &second.1[..=STEPS_AT]),
            "{}",
            case.name
        );
        let steps = first.1[STEPS_AT] as f64;
        let (mut least_before, mut least_after, mut runs) = (f64::MAX, f64::MAX, 0);
        let start = Instant::now();
        while runs < LEAST_RUNS || start.elapsed() < LEAST_TIME {
            least_before = least_before.min(call(before, black_box(words)).2);
            least_after = least_after.min(call(after, black_box(words)).2);
            runs += 1;
        }
        let ns = |seconds: f64| seconds * 1e9 / steps;
        println!(
            "| {} | {} | {:.1} | {:.1} | {:.2} |",
            case.name,
            steps,
            ns(least_before),
            ns(least_after),
            least_after / least_before
        );
    }
}
