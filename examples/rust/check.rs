// Checks the job files named on the command line: for each its line, the verdict, the room, and, for an array that can be built, a
// run beside the plain loop nest, entry k of the input table being k + 1. Exit status 1 where a value differs.
//
//     (cd crates/najluthed && rt lib); mkdir -p target
//     rustc --edition 2021 -O -o target/check-rust examples/rust/check.rs -L crates/najluthed/out -l static=najluthed
//     target/check-rust FILE...
use std::process::exit;

/// The library: names, types and what each call promises are those of include/najluthed.h.
mod najluthed {
    pub const MOST_ROOM: u64 = 8192;
    const LONGEST_LINE: usize = 269;

    #[repr(C)]
    pub struct Reply {
        pub number: u32,
        pub stream: u32,
        pub hops: i64,
    }

    #[repr(C)]
    pub struct Done {
        pub number: u32,
        pub count: u64,
    }

    #[repr(C)]
    pub struct Extent {
        pub number: u32,
        pub dimensions: u32,
        pub streams: u32,
        pub points: u64,
        pub cells: u64,
        pub ticks: u64,
        pub room: u64,
    }

    extern "C" {
        fn najluthed_verdict(job: *const u8, length: usize) -> Reply;
        fn najluthed_room(job: *const u8, length: usize) -> Done;
        fn najluthed_sizes(job: *const u8, length: usize) -> Extent;
        fn najluthed_line(job: *const u8, length: usize, out: *mut u8, out_count: usize) -> usize;
        fn najluthed_run(
            job: *const u8,
            length: usize,
            input: *const u32,
            inputs: usize,
            values: *mut u32,
            value_count: usize,
            places: *mut u32,
            place_count: usize,
        ) -> Done;
        fn najluthed_loop(
            job: *const u8,
            length: usize,
            input: *const u32,
            inputs: usize,
            values: *mut u32,
            value_count: usize,
        ) -> Done;
    }

    // What the caller owes the library is what a slice is: elements that are there, aligned, and, where they may be written, no one
    // else's. Its pointer is not null, even where it is empty. So these are safe, for all bytes and all lengths.

    pub fn verdict(job: &[u8]) -> Reply {
        unsafe { najluthed_verdict(job.as_ptr(), job.len()) }
    }

    pub fn room(job: &[u8]) -> Done {
        unsafe { najluthed_room(job.as_ptr(), job.len()) }
    }

    pub fn sizes(job: &[u8]) -> Extent {
        unsafe { najluthed_sizes(job.as_ptr(), job.len()) }
    }

    pub fn line(job: &[u8]) -> String {
        let mut out = [0; LONGEST_LINE];
        let end = unsafe { najluthed_line(job.as_ptr(), job.len(), out.as_mut_ptr(), out.len()) };
        String::from_utf8_lossy(&out[..end]).into_owned()
    }

    pub fn run(job: &[u8], input: &[u32], values: &mut [u32], places: &mut [u32]) -> Done {
        unsafe {
            najluthed_run(
                job.as_ptr(),
                job.len(),
                input.as_ptr(),
                input.len(),
                values.as_mut_ptr(),
                values.len(),
                places.as_mut_ptr(),
                places.len(),
            )
        }
    }

    pub fn looped(job: &[u8], input: &[u32], values: &mut [u32]) -> Done {
        unsafe {
            najluthed_loop(
                job.as_ptr(),
                job.len(),
                input.as_ptr(),
                input.len(),
                values.as_mut_ptr(),
                values.len(),
            )
        }
    }
}

/// Runs the array beside the loop: whether a value differs.
fn compare(job: &[u8]) -> bool {
    let sizes = najluthed::sizes(job);
    let points = sizes.points as usize;
    let size = sizes.streams as usize * points;
    let fits = sizes.room <= najluthed::MOST_ROOM;
    let mut places = vec![0; if fits { sizes.room as usize } else { 0 }];
    let input: Vec<u32> = (1..=size as u32).collect();
    let mut values = vec![0; size];
    let mut other = vec![0; size];
    let run = najluthed::run(job, &input, &mut values, &mut places);
    let looped = najluthed::looped(job, &input, &mut other);
    println!("run number {} count {}", run.number, run.count);
    println!("loop number {} count {}", looped.number, looped.count);
    if run.number != 0 {
        return false;
    }
    let differ = values != other;
    println!("values {}", if differ { "differ" } else { "the same" });
    for (s, row) in values.chunks(points).enumerate() {
        println!("stream {} last value {}", s, row[points - 1]);
    }
    differ
}

/// Tells all about one job: whether the array and the loop differ.
fn check(name: &str, job: &[u8]) -> bool {
    print!("{}: {}", name, najluthed::line(job));
    let r = najluthed::verdict(job);
    println!(
        "verdict number {} stream {} hops {}",
        r.number, r.stream, r.hops
    );
    let room = najluthed::room(job);
    println!("room number {} count {}", room.number, room.count);
    r.number == 0 && compare(job)
}

fn main() {
    let names: Vec<String> = std::env::args().skip(1).collect();
    if names.is_empty() {
        eprintln!("check FILE...");
        exit(2);
    }
    let mut differ = false;
    for name in &names {
        match std::fs::read(name) {
            Ok(job) => differ |= check(name, &job),
            Err(error) => {
                eprintln!("{}: {}", name, error);
                exit(2);
            }
        }
    }
    exit(differ as i32);
}
