//! Times the three ways of the same calls side by side, and prints them as the rows of a table.

use std::hint::black_box;
use std::time::{Duration, Instant};

/// How often each way is sampled.
pub const SAMPLES: usize = 15;

/// Something to time: runs over all inputs once and returns how many calls that were.
pub type Run<'a> = Box<dyn FnMut() -> usize + 'a>;

/// The Rust with libm's hypot, the Rust with the exact one, and the port.
pub struct Row<'a> {
    /// What is called.
    pub name: String,
    /// Of the section; 0 where there is none.
    pub vertices: usize,
    /// In this order.
    pub ways: [Run<'a>; 3],
}

/// The table that is printed, row by row, and its worst row so far.
pub struct Table {
    least: Duration,
    worst: (f64, String),
}

impl Table {
    /// Prints the head. A sample takes at least this many milliseconds.
    pub fn new(milliseconds: u64) -> Table {
        println!("Median of {SAMPLES} samples of {milliseconds} ms, in nanoseconds per call.\n");
        println!("| call | vertices | Rust, libm's hypot | Rust, exact hypot | port | port / Rust with libm |");
        println!("|---|---:|---:|---:|---:|---:|");
        Table { least: Duration::from_millis(milliseconds), worst: (0.0, String::new()) }
    }

    /// Times a row and prints it.
    pub fn row(&mut self, mut row: Row) {
        let [libm, exact, port] = medians(&mut row, self.least);
        let vertices = if row.vertices == 0 { String::new() } else { row.vertices.to_string() };
        let (share, digits) = (port / libm, if port < 0.01 * libm { 4 } else { 2 });
        println!("| {} | {vertices} | {libm:.1} | {exact:.1} | {port:.1} | {share:.digits$} |", row.name);
        if row.vertices > 0 && share > self.worst.0 {
            self.worst = (share, format!("{}, {vertices} vertices", row.name));
        }
    }

    /// Prints the worst of the calls beside a section.
    pub fn end(&self) {
        println!("\nThe worst of the calls beside a section: {:.2}, {}.", self.worst.0, self.worst.1);
    }
}

/// Nanoseconds per call, over one run or as many as take this long.
fn sample(run: &mut Run, least: Duration) -> f64 {
    let start = Instant::now();
    let mut calls = run();
    while start.elapsed() < least {
        calls += run();
    }
    start.elapsed().as_nanos() as f64 / calls as f64
}

/// The medians of the three, sampled in turn so that all meet the same conditions.
fn medians(row: &mut Row, least: Duration) -> [f64; 3] {
    let mut times = [const { Vec::new() }; 3];
    for _ in 0..SAMPLES {
        for (way, times) in row.ways.iter_mut().zip(&mut times) {
            times.push(sample(way, least));
        }
    }
    times.map(|mut times| {
        times.sort_by(f64::total_cmp);
        times[SAMPLES / 2]
    })
}

/// Runs `call` on every input.
pub fn over<'a, T, R>(inputs: &'a [T], mut call: impl FnMut(&'a T) -> R + 'a) -> Run<'a> {
    Box::new(move || {
        for input in inputs {
            black_box(call(black_box(input)));
        }
        inputs.len()
    })
}

/// The seconds that the processor has spent on this process, whatever other programs run; of Linux.
pub fn processor_time() -> f64 {
    #[repr(C)]
    struct Time {
        seconds: i64,
        nanoseconds: i64,
    }
    unsafe extern "C" {
        fn clock_gettime(clock: i32, time: *mut Time) -> i32;
    }
    const OF_PROCESS: i32 = 2;
    let mut time = Time { seconds: 0, nanoseconds: 0 };
    // SAFETY: the place is a timespec of x86-64 Linux, and lives through the call.
    let failed = unsafe { clock_gettime(OF_PROCESS, &mut time) };
    assert_eq!(failed, 0, "no clock");
    time.seconds as f64 + time.nanoseconds as f64 * 1e-9
}
