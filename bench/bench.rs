//! Measures the library beside the baseline: the same inputs, in one run, turn by turn.
//!
//!     bench LIBRARY_PROGRAM BASELINE_PROGRAM [REPETITIONS]
//!
//! Each figure is processor time (of the calling thread; of a program, user and system), so that other work on the machine
//! counts little: the least and the median of the repetitions, and the ratio of the medians. Both sides must leave the same
//! bytes and print the same report, or the run ends with status 1.

#[allow(dead_code)]
#[path = "baseline.rs"]
mod baseline;
#[allow(dead_code)]
#[path = "../tests/exports.rs"]
mod exports;
#[path = "gen.rs"]
mod gen;
#[allow(dead_code)]
#[path = "../tests/oracle.rs"]
mod oracle;

use exports::{conform_event, conform_restore, conform_start};
use gen::Input;
use std::fs::{self, File};
use std::io::Read;
use std::path::{Path, PathBuf};
use std::process::{Command, Stdio};

/// For measuring alone, in the archive libbench.a: takes up the trail once, applies the events of a trail file's body one
/// after the other with the library's event function, and gives how many were accepted.
type Events = unsafe extern "C" fn(trail: *mut u8, trail_len: usize, events: *const u8, events_len: usize) -> u64;

extern "C" {
    fn conform_bench_events_0(trail: *mut u8, trail_len: usize, events: *const u8, events_len: usize) -> u64;
    fn conform_bench_events_8(trail: *mut u8, trail_len: usize, events: *const u8, events_len: usize) -> u64;
    fn conform_bench_events_16(trail: *mut u8, trail_len: usize, events: *const u8, events_len: usize) -> u64;
    fn conform_bench_events_24(trail: *mut u8, trail_len: usize, events: *const u8, events_len: usize) -> u64;
    fn conform_bench_events_32(trail: *mut u8, trail_len: usize, events: *const u8, events_len: usize) -> u64;
    fn conform_bench_events_40(trail: *mut u8, trail_len: usize, events: *const u8, events_len: usize) -> u64;
    fn conform_bench_events_48(trail: *mut u8, trail_len: usize, events: *const u8, events_len: usize) -> u64;
    fn conform_bench_events_56(trail: *mut u8, trail_len: usize, events: *const u8, events_len: usize) -> u64;
}

/// The same function, so many bytes behind the start of a line of 64 bytes.
const PLACED: [Events; 8] = [
    conform_bench_events_0,
    conform_bench_events_8,
    conform_bench_events_16,
    conform_bench_events_24,
    conform_bench_events_32,
    conform_bench_events_40,
    conform_bench_events_48,
    conform_bench_events_56,
];

fn start(input: &Input) -> Vec<u8> {
    let mut trail = vec![0; 29_844];
    let answer = unsafe {
        conform_start(
            input.table.as_ptr(),
            input.table.len(),
            input.register.as_ptr(),
            input.register.len(),
            trail.as_mut_ptr(),
            trail.len(),
        )
    };
    demand(answer as u32 == 0, "the library refuses to start");
    trail.truncate((answer >> 32) as usize);
    trail
}

fn demand(holds: bool, message: &str) {
    if !holds {
        println!("FAILED: {message}");
        std::process::exit(1);
    }
}

// ---------------------------------------------------------------- times

/// Nanoseconds for each unit of work, one number for each repetition.
struct Times(Vec<f64>);

impl Times {
    fn least(&self) -> f64 {
        self.0.iter().copied().fold(f64::INFINITY, f64::min)
    }

    fn median(&self) -> f64 {
        let mut sorted = self.0.clone();
        sorted.sort_by(f64::total_cmp);
        let middle = sorted.len() / 2;
        if sorted.len() % 2 == 1 {
            sorted[middle]
        } else {
            (sorted[middle - 1] + sorted[middle]) / 2.0
        }
    }
}

/// Library and baseline turn by turn, the first of each pair changing; a first pair is thrown away.
fn measure(repetitions: usize, units: usize, mut library: impl FnMut() -> f64, mut baseline: impl FnMut() -> f64) -> [Times; 2] {
    let mut times = [Times(Vec::new()), Times(Vec::new())];
    for i in 0..repetitions + 1 {
        let pair = if i % 2 == 0 {
            let first = library();
            [first, baseline()]
        } else {
            let first = baseline();
            [library(), first]
        };
        if i > 0 {
            for (times, nanoseconds) in times.iter_mut().zip(pair) {
                times.0.push(nanoseconds / units as f64);
            }
        }
    }
    times
}

// of the system's C library, on x86-64 Linux
extern "C" {
    fn clock_gettime(clock: i32, seconds_and_nanoseconds: *mut [i64; 2]) -> i32;
    fn wait4(pid: i32, status: *mut i32, options: i32, usage: *mut [i64; 18]) -> i32;
}

/// Processor time of this thread, in nanoseconds.
fn now() -> f64 {
    const THREAD_CPU_TIME: i32 = 3;
    let mut t = [0; 2];
    demand(unsafe { clock_gettime(THREAD_CPU_TIME, &mut t) } == 0, "no clock");
    t[0] as f64 * 1e9 + t[1] as f64
}

fn time(work: impl FnOnce()) -> f64 {
    let start = now();
    work();
    now() - start
}

/// The time of work that must come to `want`.
fn time_of(name: &str, want: u64, work: impl FnOnce() -> u64) -> f64 {
    let mut got = 0;
    let spent = time(|| got = work());
    demand(got == want, &format!("{name} refuses what it should take"));
    spent
}

fn print_head(title: &str) {
    println!("\n{title}");
    println!("{:<34}{:>10}{:>10}{:>12}{:>10}{:>8}", "", "library", "(least)", "baseline", "(least)", "ratio");
}

fn print_row(name: &str, unit: &str, times: &[Times; 2]) {
    let scale = if unit == "µs" { 1000.0 } else { 1.0 };
    let [library, baseline] = times;
    println!(
        "{:<34}{:>10.2}{:>10.2}{:>12.2}{:>10.2}{:>8.2}",
        format!("{name} ({unit})"),
        library.median() / scale,
        library.least() / scale,
        baseline.median() / scale,
        baseline.least() / scale,
        library.median() / baseline.median()
    );
}

// ---------------------------------------------------------------- what is measured

/// Nanoseconds an event, on a trail in memory; the library's function in one place after the other.
fn events(input: &Input, repetitions: usize) -> [Times; 2] {
    let fresh = start(input);
    let (mut ours, mut theirs) = (fresh.clone(), fresh.clone());
    let body = &input.events;
    let want = input.event_count as u64;
    let mut placed = PLACED.iter().cycle();
    let times = measure(
        repetitions,
        input.event_count,
        || {
            ours.copy_from_slice(&fresh);
            let run = placed.next().unwrap();
            time_of("the library", want, || unsafe { run(ours.as_mut_ptr(), ours.len(), body.as_ptr(), body.len()) })
        },
        || {
            theirs.copy_from_slice(&fresh);
            time_of("the baseline", want, || baseline::bench_events(&mut theirs, body))
        },
    );
    demand(ours == theirs && ours != fresh, "library and baseline differ after the same events");
    times
}

/// Nanoseconds a call of `conform_event`: the check of the whole record, then the event. The calls are the trace's last.
fn client_calls(input: &Input, repetitions: usize) -> [Times; 2] {
    let calls = input.event_count.min(2000);
    let first = input.event_count - calls;
    let mut fresh = start(input);
    baseline::bench_events(&mut fresh, &input.events[..input.starts[first]]);
    let (mut ours, mut theirs) = (fresh.clone(), fresh.clone());
    let last = || (first..input.event_count).map(|i| input.event(i));
    let times = measure(
        repetitions,
        calls,
        || {
            ours.copy_from_slice(&fresh);
            time_of("the library", 0, || {
                last().fold(0, |refused, (activity, objects)| {
                    refused | unsafe { conform_event(ours.as_mut_ptr(), ours.len(), activity, objects.as_ptr(), objects.len()) }
                })
            })
        },
        || {
            theirs.copy_from_slice(&fresh);
            time_of("the baseline", 0, || {
                last().fold(0, |refused, (activity, objects)| refused | baseline::conform_event(&mut theirs, activity, objects))
            })
        },
    );
    demand(ours == theirs && ours != fresh, "library and baseline differ after the same calls");
    times
}

/// Nanoseconds to restore a record with counts in it.
fn restores(input: &Input, repetitions: usize) -> [Times; 2] {
    let mut record = start(input);
    baseline::bench_events(&mut record, &input.events);
    let calls = 1000;
    let (mut ours, mut theirs) = (vec![0; record.len()], vec![0; record.len()]);
    let taken = (record.len() as u64) << 32;
    let (record_at, len) = (record.as_ptr(), record.len());
    let times = measure(
        repetitions,
        calls,
        || {
            let mut restored = || unsafe { conform_restore(record_at, len, ours.as_mut_ptr(), ours.len()) } == taken;
            time_of("the library", calls as u64, || (0..calls).filter(|_| restored()).count() as u64)
        },
        || {
            let mut restored = || baseline::conform_restore(&record, &mut theirs) == taken;
            time_of("the baseline", calls as u64, || (0..calls).filter(|_| restored()).count() as u64)
        },
    );
    demand(ours == record && theirs == record, "a restored record differs");
    times
}

/// A folder for the programs to run in.
struct Folder(PathBuf);

impl Folder {
    fn new(input: &Input) -> Folder {
        let folder = std::env::temp_dir().join(format!("conform_bench.{}", std::process::id()));
        fs::create_dir_all(&folder).unwrap();
        fs::write(folder.join("route.tab"), &input.table).unwrap();
        fs::write(folder.join("trail"), input.trail_file()).unwrap();
        Folder(folder)
    }

    fn run(&self, program: &Path) -> (f64, Vec<u8>) {
        let trail = File::open(self.0.join("trail")).unwrap();
        let mut command = Command::new(program);
        command.current_dir(&self.0).stdin(Stdio::from(trail)).stdout(Stdio::piped());
        let mut child = command.spawn().unwrap();
        let mut output = Vec::new();
        child.stdout.take().unwrap().read_to_end(&mut output).unwrap();
        // seconds and microseconds in user mode, then in system mode
        let (mut status, mut usage) = (0, [0; 18]);
        let pid = child.id() as i32;
        demand(unsafe { wait4(pid, &mut status, 0, &mut usage) } == pid && status == 0, "a program failed");
        let spent = (usage[0] + usage[2]) as f64 * 1e9 + (usage[1] + usage[3]) as f64 * 1e3;
        (spent, output)
    }
}

impl Drop for Folder {
    fn drop(&mut self) {
        let _ = fs::remove_dir_all(&self.0);
    }
}

/// Nanoseconds an event of the whole program, its start and its report included; the trail is in the file cache.
fn programs(input: &Input, repetitions: usize, library: &Path, baseline: &Path) -> [Times; 2] {
    let folder = Folder::new(input);
    let (mut ours, mut theirs) = (Vec::new(), Vec::new());
    let times = measure(
        repetitions,
        input.event_count,
        || {
            let (spent, output) = folder.run(library);
            ours = output;
            spent
        },
        || {
            let (spent, output) = folder.run(baseline);
            theirs = output;
            spent
        },
    );
    demand(ours == theirs && ours.starts_with(b"trail "), "the two programs print different reports");
    times
}

fn main() {
    let args: Vec<String> = std::env::args().skip(1).collect();
    if args.len() < 2 {
        eprintln!("usage: bench LIBRARY_PROGRAM BASELINE_PROGRAM [REPETITIONS]");
        std::process::exit(2);
    }
    let program = |path: &str| fs::canonicalize(path).unwrap_or_else(|error| panic!("{path}: {error}"));
    let (library, baseline) = (program(&args[0]), program(&args[1]));
    let repetitions = args.get(2).and_then(|word| word.parse().ok()).unwrap_or(16);
    println!("{repetitions} repetitions; median and least of library and baseline, ratio of the medians");

    let all_four = |name: &str, input: &Input| {
        print_row(&format!("event, {name}"), "ns", &events(input, repetitions));
        print_row(&format!("program, {name}"), "ns", &programs(input, repetitions, &library, &baseline));
        print_row(&format!("client call, {name}"), "µs", &client_calls(input, repetitions));
        print_row(&format!("restore, {name}"), "µs", &restores(input, repetitions));
    };
    print_head("1,000,000 events, jumps included (event and program: time an event)");
    all_four("table M", &gen::marking(1_000_000));
    all_four("mixed net", &gen::mixed(1_000_000));
    all_four("full net", &gen::ring(64, 1024, 1_000_000));
    print_head("growth with events: 64 places, 1,024 objects");
    for count in [1000, 10_000, 100_000] {
        all_four(&format!("{count} events"), &gen::ring(64, 1024, count));
    }
    print_head("growth with objects: 64 places, 100,000 events");
    for objects in [8, 64, 256, 1024] {
        all_four(&format!("{objects} objects"), &gen::ring(64, objects, 100_000));
    }
    print_head("growth with places: 64 objects, 100,000 events");
    for places in [16, 32, 64] {
        all_four(&format!("{places} places"), &gen::ring(places, 64, 100_000));
    }
}
