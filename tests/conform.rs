//! Runs the program on many tables and trails and compares its whole output with the oracle's.
//!
//!     conform_test BINARY EXAMPLES [ROUNDS] [SEED]
//!     conform_test --program            be the program, by the oracle: `route.tab` and standard input
//!
//! Round i is made from the seed SEED + i alone; a run of more rounds than usual also has inputs of 4 GB. Ends with status 1
//! at the first difference, leaves the table and the trail of that case in a folder and says where.

#[allow(dead_code)]
mod oracle;
#[allow(dead_code)]
mod random;

use oracle::{bytes_of, file_of, table_m, trace_file, Net, REGISTER_M, REPORT_T4};
use random::Rng;
use std::collections::BTreeMap;
use std::fs::{self, File};
use std::io::{Read, Write};
use std::path::{Path, PathBuf};
use std::process::{Command, Stdio};
use std::sync::mpsc;
use std::time::Duration;

const DEFAULT_ROUNDS: u64 = 400;
const DEFAULT_SEED: u64 = 18_181_015;

type Event = (u32, Vec<u32>);

/// How standard input is given: as a file, or through a pipe in parts of at most so many bytes.
#[derive(Clone, Copy)]
enum Feed {
    File,
    Pipe(usize),
}

struct Check {
    binary: PathBuf,
    folder: PathBuf,
    seed: u64,
    cases: u64,
    answers: BTreeMap<String, u64>,
}

impl Check {
    fn fail(&self, case: &str, message: &str) -> ! {
        println!("DIFFERENCE in {case} (seed {}): {message}", self.seed);
        println!("its files: {}", self.folder.display());
        std::process::exit(1);
    }

    /// What the program writes in the folder as it is, and how it ended.
    fn output(&self, case: &str, trace: &[u8], feed: Feed) -> String {
        let trace_path = self.folder.join("trail");
        fs::write(&trace_path, trace).unwrap();
        let stdin = match feed {
            Feed::File => Stdio::from(File::open(&trace_path).unwrap()),
            Feed::Pipe(_) => Stdio::piped(),
        };
        self.run(case, Command::new(&self.binary).stdin(stdin), trace, feed)
    }

    fn run(&self, case: &str, command: &mut Command, trace: &[u8], feed: Feed) -> String {
        let mut child = command
            .current_dir(&self.folder)
            .stdout(Stdio::piped())
            .stderr(Stdio::piped())
            .spawn()
            .unwrap_or_else(|error| self.fail(case, &format!("the program does not start: {error}")));
        let mut out = child.stdout.take().unwrap();
        let mut err = child.stderr.take().unwrap();
        let (sender, receiver) = mpsc::channel();
        let reader = std::thread::spawn(move || {
            let (mut text, mut noise) = (Vec::new(), Vec::new());
            out.read_to_end(&mut text).unwrap();
            err.read_to_end(&mut noise).unwrap();
            sender.send((text, noise)).unwrap();
        });
        if let (Feed::Pipe(most), Some(mut pipe)) = (feed, child.stdin.take()) {
            for part in trace.chunks(most) {
                // a program that has seen enough need not read on
                if pipe.write_all(part).is_err() {
                    break;
                }
            }
        }
        let Ok((text, noise)) = receiver.recv_timeout(Duration::from_secs(120)) else {
            let _ = child.kill();
            self.fail(case, "no answer in two minutes");
        };
        reader.join().unwrap();
        let status = child.wait().unwrap();
        if !status.success() || !noise.is_empty() {
            self.fail(case, &format!("ended with {status}, and wrote as errors: {}", String::from_utf8_lossy(&noise)));
        }
        String::from_utf8(text).unwrap_or_else(|_| self.fail(case, "the output is no text"))
    }

    fn same(&mut self, case: &str, got: &str, want: &str) {
        if got != want {
            let line =
                got.lines().zip(want.lines()).position(|(a, b)| a != b).unwrap_or(got.lines().count().min(want.lines().count()));
            let of = |text: &str| text.lines().nth(line).unwrap_or("nothing").to_string();
            let lengths = format!("{} and {} bytes", got.len(), want.len());
            self.fail(case, &format!("line {} is `{}`, expected `{}` ({lengths})", line + 1, of(got), of(want)));
        }
        self.cases += 1;
        let key = if want.starts_with("refused") {
            want.split(' ').take(2).collect::<Vec<_>>().join(" ")
        } else {
            "report".to_string()
        };
        *self.answers.entry(key).or_default() += 1;
    }

    fn set_table(&self, table: &[u8]) {
        fs::write(self.folder.join("route.tab"), table).unwrap();
    }

    /// The program's output is the oracle's.
    fn compare(&mut self, case: &str, table: &[u8], trace: &[u8], feed: Feed) -> String {
        self.set_table(table);
        let got = self.output(case, trace, feed);
        let want = oracle::program(table, trace);
        self.same(case, &got, &want);
        want
    }

    /// The program's output is the oracle's, and that is what the case is about.
    fn expect(&mut self, case: &str, table: &[u8], trace: &[u8], line: &str) {
        let want = self.compare(case, table, trace, Feed::File);
        if want.lines().next() != Some(line) {
            self.fail(case, &format!("the test itself: the first line should be `{line}`, and the oracle says `{want}`"));
        }
    }
}

fn events_m(events: &[(u32, &[u32])]) -> Vec<u8> {
    let events: Vec<Event> = events.iter().map(|e| (e.0, e.1.to_vec())).collect();
    trace_file(&REGISTER_M, &events)
}

const T4: [(u32, &[u32]); 5] = [(0, &[0]), (1, &[1]), (2, &[0, 1]), (2, &[0, 2]), (3, &[0])];

// ---------------------------------------------------------------- examples and named cases

fn examples(c: &mut Check, folder: &Path) {
    let firsts = [
        ("T3", "trail 3 6 0 11 1.000"),
        ("T4", "trail 3 5 1 10 0.900"),
        ("three-sheets", "trail 4 7 1 14 0.929"),
        ("T6", "trail 1 0 1 1 0.000"),
        ("trading-1", "trail 3 5 0 9 1.000"),
        ("trading-2", "trail 4 4 4 10 0.600"),
    ];
    for (name, first) in firsts {
        let file = |what: &str| fs::read(folder.join(name).join(what)).unwrap_or_else(|e| c.fail(name, &format!("{what}: {e}")));
        let (table, trace, sheet) = (file("route.tab"), file("trail"), file("sheet"));
        c.expect(name, &table, &trace, first);
        let want = oracle::program(&table, &trace);
        c.same(name, &String::from_utf8(sheet).unwrap(), &want);
    }
    let got = c.compare("T4", &table_m(), &events_m(&T4), Feed::Pipe(1));
    c.same("T4, whole", &got, REPORT_T4);
}

/// A net of one kind: places 0 to `places` − 1, source 0, sink 1; activity 0 moves 0 to 1, activity 1 moves 1 to 1.
fn small_table(places: usize) -> Vec<u8> {
    file_of(&[bytes_of(&[0, 1]), bytes_of(&vec![0; places]), bytes_of(&[1, 1]), bytes_of(&[0, 1, 1, 1])])
}

fn hand_counted(c: &mut Check) {
    c.expect("T11, 1,024 objects", &table_m(), &trace_file(&[1; 1024], &[]), "trail 1024 0 1024 1024 0.000");
    c.expect("T11, 1,025 objects", &table_m(), &trace_file(&[1; 1025], &[]), "refused 11 0");
    c.expect("T11, 64 places", &small_table(64), &trace_file(&[0], &[]), "trail 1 0 1 1 0.000");
    c.expect("T11, 65 places", &small_table(65), &trace_file(&[0], &[]), "refused 3 0");
    // one jump and then none, of so many transfers: to the nearest thousandth, halves upward, but not to 1.000
    let figures = [
        (2, "0.500"),
        (3, "0.667"),
        (7, "0.857"),
        (16, "0.938"),
        (80, "0.988"),
        (1000, "0.999"),
        (1001, "0.999"),
        (1999, "0.999"),
        (2000, "0.999"),
        (2001, "0.999"),
        (100_000, "0.999"),
    ];
    for (transfers, figure) in figures {
        let events = vec![(1, vec![0]); transfers - 1];
        let line = format!("trail 1 {} 1 {transfers} {figure}", transfers - 1);
        c.expect("T13", &small_table(2), &trace_file(&[0], &events), &line);
    }
    c.expect("T13, no jump", &small_table(2), &trace_file(&[0], &[(0, vec![0]), (1, vec![0])]), "trail 1 2 0 3 1.000");
}

/// Numbers put in the place of those of a file.
fn with(bytes: &[u8], numbers: &[(usize, u32)]) -> Vec<u8> {
    let mut changed = bytes.to_vec();
    for &(at, number) in numbers {
        changed[4 * at..4 * at + 4].copy_from_slice(&number.to_le_bytes());
    }
    changed
}

fn joined(a: &[u8], b: &[u8]) -> Vec<u8> {
    [a, b].concat()
}

fn refused_tables(c: &mut Check) {
    let m = table_m();
    let t4 = events_m(&T4);
    // table M with other rows in one of its bodies
    let with_body = |body: usize, rows: &[u32]| {
        let mut bodies = [m[32..48].to_vec(), m[48..72].to_vec(), m[72..88].to_vec(), m[88..].to_vec()];
        bodies[body] = bytes_of(rows);
        file_of(&bodies)
    };
    let cases: Vec<(&str, Vec<u8>, u32)> = vec![
        ("an empty table", vec![], 1),
        ("31 bytes", m[..31].to_vec(), 1),
        ("4,705 bytes", vec![0; 4705], 1),
        ("a table of a megabyte", vec![7; 1 << 20], 1),
        ("32 bytes of nothing", vec![0; 32], 2),
        ("4,704 bytes of nothing", vec![0; 4704], 2),
        ("a table cut by a byte", m[..127].to_vec(), 2),
        ("a table with a byte more", joined(&m, &[0]), 2),
        ("the first start", with(&m, &[(0, 31)]), 2),
        ("lengths that wrap", with(&m, &[(1, 0x8000_0010), (2, 0x8000_0030), (3, 0x8000_0018)]), 2),
        ("half a kind", with(&m, &[(1, 12), (2, 44), (3, 28)]), 2),
        ("no kind", with_body(0, &[]), 3),
        ("nine kinds", with_body(0, &[0; 18]), 3),
        ("no activity", with_body(2, &[]), 3),
        ("65 activities", with_body(2, &[1; 65]), 3),
        ("one place", with_body(1, &[0]), 3),
        ("an unknown kind", with_body(1, &[0, 0, 0, 1, 1, 2]), 4),
        ("an unknown sink", with_body(0, &[0, 2, 3, 6]), 5),
        ("a sink of another kind", with_body(0, &[0, 2, 3, 2]), 5),
        ("source and sink the same", with_body(0, &[0, 2, 3, 3]), 5),
        ("an activity with no arcs", with_body(2, &[1, 1, 3, 0]), 6),
        ("nine arcs", with_body(2, &[1, 1, 9, 1]), 6),
        ("counts that don't add up", with_body(2, &[1, 1, 2, 2]), 6),
        ("counts that add up at 2^32", with_body(2, &[1, 1, 0x8000_0002, 0x8000_0001]), 6),
        ("an arc's unknown place", with_body(3, &[0, 1, 3, 4, 1, 1, 4, 5, 1, 6]), 7),
        ("an arc between two kinds", with_body(3, &[0, 1, 3, 4, 1, 1, 4, 5, 1, 3]), 7),
        ("two arcs of one kind", with_body(3, &[0, 1, 3, 4, 1, 1, 1, 2, 1, 2]), 8),
        ("a sink not reached", with_body(3, &[0, 1, 3, 4, 1, 1, 4, 5, 1, 1]), 9),
        ("a source that leads nowhere", with_body(3, &[0, 1, 3, 3, 1, 1, 4, 5, 1, 2]), 9),
    ];
    for (name, table, code) in cases {
        c.expect(name, &table, &t4, &format!("refused {code} 0"));
        // the table's refusal comes before the trail's
        c.expect(name, &table, &[], &format!("refused {code} 0"));
    }
}

fn refused_traces(c: &mut Check) {
    let m = table_m();
    let t4 = events_m(&T4);
    // words of T4's file: contents 0 to 3, register 4 to 6, events from 7: 0 1 0 | 1 1 1 | 2 2 0 1 | 2 2 0 2 | 3 1 0
    let body = 4 * 17;
    let cases: Vec<(&str, Vec<u8>, &str)> = vec![
        ("no trail", vec![], "71 0"),
        ("15 bytes", t4[..15].to_vec(), "71 0"),
        ("16 bytes", t4[..16].to_vec(), "71 0"),
        ("a register cut short", t4[..27].to_vec(), "71 0"),
        ("a register that is there, and no events", t4[..28].to_vec(), "73 0"),
        ("a register that starts at 12", with(&t4, &[(0, 12)]), "71 0"),
        ("a register that starts at 20", with(&t4, &[(0, 20), (2, 32)]), "71 0"),
        ("events that start late", with(&t4, &[(2, 32)]), "71 0"),
        ("events that start early", with(&t4, &[(2, 24)]), "71 0"),
        ("a register of no whole rows", with(&t4, &[(1, 13), (2, 29)]), "71 0"),
        ("a register of 2^32 - 4 bytes", with(&t4, &[(1, u32::MAX - 3), (2, 12)]), "71 0"),
        ("a register of 2^32 - 20 bytes", with(&t4, &[(1, u32::MAX - 19), (2, u32::MAX - 3)]), "71 0"),
        ("a register of 2^32 - 16 bytes, wrapped", with(&t4, &[(1, u32::MAX - 15), (2, 0)]), "71 0"),
        ("71 before 11", with(&t4, &[(1, 0), (2, 28)]), "71 0"),
        ("no objects", trace_file(&[], &[]), "11 0"),
        ("no objects, and events", with(&t4, &[(1, 0), (2, 16), (3, body + 12)]), "11 0"),
        ("1,025 objects", trace_file(&[0; 1025], &[]), "11 0"),
        ("1,025 objects of no known kind", trace_file(&[9; 1025], &[]), "11 0"),
        ("an unknown kind", with(&t4, &[(6, 2)]), "12 0"),
        ("an unknown kind, cut to a byte known", with(&t4, &[(6, 256)]), "12 0"),
        ("12 before the events", joined(&with(&t4, &[(4, u32::MAX)]), &[1]), "12 0"),
        ("half an event's head", t4[..32].to_vec(), "73 0"),
        ("a body of 4 bytes", with(&t4, &[(3, 4)]), "73 0"),
        ("a body of 7 bytes", with(&t4, &[(3, 7)]), "73 0"),
        ("a body that ends in the second head", with(&t4, &[(3, 12 + 7)]), "73 1"),
        ("a body that ends before the objects", with(&t4, &[(3, 12 + 8)]), "73 1"),
        ("a body that ends inside the objects", with(&t4, &[(3, 12 + 11)]), "73 1"),
        ("a body that ends after the second event", with(&t4, &[(3, 12 + 12)]), "73 2"),
        ("a body of no bytes, with bytes after it", with(&t4, &[(3, 0)]), "73 0"),
        ("a body longer than the file", with(&t4, &[(3, body as u32 + 1)]), "73 5"),
        ("a body of 2^32 - 1 bytes", with(&t4, &[(3, u32::MAX)]), "73 5"),
        ("a body of 2^32 - 28 bytes", with(&t4, &[(3, u32::MAX - 27)]), "73 5"),
        ("a file cut by a byte", t4[..t4.len() - 1].to_vec(), "73 4"),
        ("a file cut to the last head", t4[..t4.len() - 4].to_vec(), "73 4"),
        ("a file cut inside the last head", t4[..t4.len() - 5].to_vec(), "73 4"),
        ("a byte after the body", joined(&t4, &[0]), "73 5"),
        ("an event after the body", joined(&t4, &bytes_of(&[0, 1, 0])), "73 5"),
        ("an unknown activity", with(&t4, &[(10, 4)]), "23 1"),
        ("activity 256", with(&t4, &[(10, 256)]), "23 1"),
        ("activity 2^32 - 1", with(&t4, &[(10, u32::MAX), (11, u32::MAX)]), "23 1"),
        ("too few objects", with(&t4, &[(14, 1)]), "24 2"),
        ("too many objects", with(&t4, &[(11, 2)]), "24 1"),
        ("2^32 - 1 objects", with(&t4, &[(11, u32::MAX)]), "24 1"),
        ("2^30 + 1 objects", with(&t4, &[(11, (1 << 30) + 1)]), "24 1"),
        ("24 before the missing objects", with(&t4[..36], &[(3, 8), (8, 2)]), "24 0"),
        ("an unknown object", with(&t4, &[(15, 3)]), "25 2"),
        ("object 256", with(&t4, &[(15, 256)]), "25 2"),
        ("25 of the second before 26 of the first", with(&t4, &[(14, 2), (15, 1), (16, 1 << 31)]), "25 2"),
        ("a kind that is not taken", with(&t4, &[(12, 0)]), "26 1"),
        ("two of one kind", with(&t4, &[(15, 2)]), "27 2"),
        ("an object twice", with(&t4, &[(15, 1)]), "27 2"),
    ];
    for (name, trace, answer) in cases {
        c.expect(name, &m, &trace, &format!("refused {answer}"));
        c.compare(name, &m, &trace, Feed::Pipe(3));
    }
}

/// Files that cannot be opened or read count as empty.
fn unreadable(c: &mut Check) {
    let path = c.folder.join("route.tab");
    let t4 = events_m(&T4);
    let _ = fs::remove_file(&path);
    let got = c.output("no route.tab", &t4, Feed::File);
    c.same("no route.tab", &got, "refused 1 0\n");
    fs::create_dir(&path).unwrap();
    let got = c.output("route.tab is a folder", &t4, Feed::File);
    c.same("route.tab is a folder", &got, "refused 1 0\n");
    fs::remove_dir(&path).unwrap();
    c.set_table(&table_m());
    let shell = |words: &str, binary: &Path| {
        let mut command = Command::new("sh");
        command.arg("-c").arg(format!("exec \"$0\" {words}")).arg(binary).stdin(Stdio::null());
        command
    };
    for (name, words) in [("closed standard input", "<&-"), ("a folder as standard input", "<.")] {
        let got = c.run(name, &mut shell(words, &c.binary), &[], Feed::File);
        c.same(name, &got, "refused 71 0\n");
    }
}

// ---------------------------------------------------------------- random traces

fn random_events(rng: &mut Rng, net: &Net, kinds: &[u32], count: usize) -> Vec<Event> {
    let mut replay = oracle::Replay::start(&net.table(), kinds).unwrap();
    let faithful = rng.pick(&[0, 50, 90, 100]);
    let bad = rng.pick(&[0, 0, 0, 1, 5]);
    let mut events = Vec::new();
    for _ in 0..count {
        let refused = rng.percent(bad);
        let event = if refused {
            random::bad_event(rng, net, &replay.objects, &replay.places)
        } else {
            random::event(rng, net, &replay.objects, &replay.places, faithful)
        };
        // an event that the register cannot serve ends the trace for good: mostly it is left out
        if replay.event(event.0, &event.1).is_ok() || refused || rng.percent(1) {
            events.push(event);
        }
    }
    events
}

fn random_round(c: &mut Check, rng: &mut Rng) {
    let net = if rng.percent(10) { random::full_net(rng) } else { random::net(rng) };
    let most = if rng.percent(20) { 1024 } else { 40 };
    let kinds = random::register(rng, &net, most);
    let count = rng.pick(&[0, 1, 5, 50, 50, 300, 3000]);
    let events = random_events(rng, &net, &kinds, count);
    let mut table = net.table();
    let mut trace = trace_file(&kinds, &events);
    let feed = match rng.below(3) {
        0 => Feed::File,
        1 => Feed::Pipe(rng.pick(&[1, 7, 64]).max(trace.len() / 400)),
        _ => Feed::Pipe(rng.pick(&[1000, 4096, 65_536])),
    };
    c.compare("a random trail", &table, &trace, feed);
    for _ in 0..3 {
        let mut damaged = trace.clone();
        for _ in 0..rng.pick(&[1, 1, 2]) {
            random::damage_bytes(rng, &mut damaged, 2);
        }
        c.compare("a damaged trail", &table, &damaged, feed);
    }
    if rng.percent(30) {
        table = random::damage_table(rng, &net);
        if rng.percent(50) {
            random::damage_bytes(rng, &mut trace, 2);
        }
        c.compare("a damaged table", &table, &trace, feed);
    }
}

// ---------------------------------------------------------------- long inputs

fn long_inputs(c: &mut Check, rng: &mut Rng) {
    let m = table_m();
    // T12 on table M, with jumps: open, award, seal in turn
    let million: Vec<Event> = (0..1_000_000u32)
        .map(|i| match i % 4 {
            0 => (0, vec![0]),
            1 => (2, vec![0, 1 + i % 2]),
            2 => (2, vec![1 + i % 2, 0]),
            _ => (3, vec![0]),
        })
        .collect();
    let exact = trace_file(&REGISTER_M, &million);
    let more = |events: &[u8]| {
        let mut longer = joined(&exact, events);
        let length = (longer.len() - 28) as u32;
        longer[12..16].copy_from_slice(&length.to_le_bytes());
        longer
    };
    c.compare("T12, 1,000,000 events", &m, &exact, Feed::File);
    c.compare("T12, 1,000,000 events through a pipe", &m, &exact, Feed::Pipe(50_000));
    c.expect("T12, one event more", &m, &more(&bytes_of(&[0, 1, 0])), "refused 22 1000000");
    c.expect("T12, one head more, whatever it holds", &m, &more(&[255; 8]), "refused 22 1000000");
    c.expect("T12, seven bytes more", &m, &more(&[0; 7]), "refused 73 1000000");
    c.expect("T12, a byte after the body", &m, &joined(&exact, &[0]), "refused 73 1000000");
    c.expect("T12, cut by a byte", &m, &exact[..exact.len() - 1], "refused 73 999999");
    // the longest trail that is accepted, and then more than anything legal
    let full = random::full_net(rng);
    let kinds: Vec<u32> = (0..1024).map(|o| o % 8).collect();
    let longest: Vec<Event> =
        (0..1_000_000).map(|_| (rng.below(64) as u32, (0..8).map(|k| (8 * rng.below(128) + k) as u32).collect())).collect();
    let mut trace = trace_file(&kinds, &longest);
    assert!(trace.len() == 40_004_112);
    c.compare("the longest trail", &full.table(), &trace, Feed::File);
    trace.resize(64 << 20, 0);
    c.expect("the longest trail, and 26 MB after it", &full.table(), &trace, "refused 73 1000000");
    c.compare("the same through a pipe", &full.table(), &trace, Feed::Pipe(1 << 20));
    let length = (trace.len() - 16 - 4096) as u32;
    trace[12..16].copy_from_slice(&length.to_le_bytes());
    c.expect("a body of 64 MB", &full.table(), &trace, "refused 22 1000000");
    drop(trace);
    // registers that are claimed, and registers that are there
    let zeros = vec![0; 64 << 20];
    let claimed = |register: u32| with(&zeros, &[(0, 16), (1, register), (2, register.wrapping_add(16))]);
    c.expect("a register of 64 MB", &m, &claimed((64 << 20) - 16), "refused 11 0");
    c.expect("a register of 64 MB and a row", &m, &claimed((64 << 20) - 12), "refused 71 0");
    c.expect("a register of 2^32 - 4 bytes, in 64 MB", &m, &claimed(u32::MAX - 3), "refused 71 0");
    c.expect("a register of 2^32 - 20 bytes, in 64 MB", &m, &claimed(u32::MAX - 19), "refused 71 0");
    c.expect("64 MB of zeros", &m, &zeros, "refused 71 0");
}

/// Registers of nearly 2^32 bytes that are really there, as files with a hole: what they give is said here.
fn huge_inputs(c: &mut Check) {
    let path = c.folder.join("trail");
    c.set_table(&table_m());
    for (name, register, file_len, want) in [
        ("2^30 - 5 rows that are there", u32::MAX - 19, (1u64 << 32) - 4, "refused 11 0\n"),
        ("a row less in the file", u32::MAX - 19, (1u64 << 32) - 8, "refused 71 0\n"),
        ("an end that wraps", u32::MAX - 3, (1u64 << 32) + 12, "refused 71 0\n"),
    ] {
        let mut file = File::create(&path).unwrap();
        file.write_all(&bytes_of(&[16, register, register.wrapping_add(16), 0])).unwrap();
        file.set_len(file_len).unwrap();
        let input = Stdio::from(File::open(&path).unwrap());
        let got = c.run(name, Command::new(&c.binary).stdin(input), &[], Feed::File);
        c.same(name, &got, want);
    }
}

/// Words of the shell, with the program as `$0`: what comes on standard output and as errors.
fn in_shell(c: &Check, case: &str, words: &str, trace: &[u8]) -> (Vec<u8>, String) {
    let trace_path = c.folder.join("trail");
    fs::write(&trace_path, trace).unwrap();
    let output = Command::new("sh")
        .args(["-c", words])
        .arg(&c.binary)
        .current_dir(&c.folder)
        .stdin(Stdio::from(File::open(&trace_path).unwrap()))
        .output()
        .unwrap_or_else(|error| c.fail(case, &format!("no shell: {error}")));
    if !output.status.success() {
        c.fail(case, &format!("ended with {}", output.status));
    }
    (output.stdout, String::from_utf8_lossy(&output.stderr).into_owned())
}

const UNWRITTEN: &str = "conform: standard output cannot be written\n";

/// Where the output cannot be written, the program says so in one line and stops.
fn failing_outputs(c: &mut Check) {
    c.set_table(&table_m());
    for (what, trace) in [("a report", events_m(&T4)), ("a refusal", vec![])] {
        for (how, words) in [
            ("a full device", "exec \"$0\" >/dev/full"),
            ("a closed output", "exec \"$0\" >&-"),
            ("a closed output, and a closed input", "exec \"$0\" <&- >&-"),
            ("an output that is read-only", "exec \"$0\" 1</dev/null"),
        ] {
            let case = format!("{what} to {how}");
            let (out, errors) = in_shell(c, &case, words, &trace);
            if !out.is_empty() || errors != UNWRITTEN {
                c.fail(&case, &format!("it wrote {} bytes, and as errors: {errors}", out.len()));
            }
            c.cases += 1;
        }
    }
    // a report that takes more than one part, to a file that may have 4,096 or 8,192 bytes, as the shell counts
    let case = "a report to a file with too little room";
    // activity 0 goes from the source to the sink, and each other one stays on a place of its own: an object jumps between them
    let arcs: Vec<u32> = [0, 1].into_iter().chain((2..32).flat_map(|q| [q, q])).collect();
    let table = file_of(&[bytes_of(&[0, 1]), bytes_of(&[0; 32]), bytes_of(&[1; 31]), bytes_of(&arcs)]);
    let hops: Vec<Event> = (1..31).flat_map(|a| (1..31).flat_map(move |b| [(a, vec![0]), (b, vec![0])])).collect();
    let trace = trace_file(&[0], &hops);
    let whole = oracle::program(&table, &trace);
    c.set_table(&table);
    let (out, errors) = in_shell(c, case, "trap '' XFSZ; ulimit -f 8; \"$0\" >sheet; cat sheet", &trace);
    if errors != UNWRITTEN || out.is_empty() || out.len() >= whole.len() || !whole.as_bytes().starts_with(&out) {
        c.fail(case, &format!("{} of {} bytes, and as errors: {errors}", out.len(), whole.len()));
    }
    c.cases += 1;
}

/// With any argument the program says in two lines how it is used, and neither reads nor writes anything else.
fn arguments(c: &mut Check) {
    c.set_table(&table_m());
    let trace = events_m(&T4);
    for words in ["\"$0\" trail; cat", "\"$0\" ''; cat", "\"$0\" --help x y; cat"] {
        let (out, errors) = in_shell(c, words, words, &trace);
        if out != trace || errors.lines().count() != 2 || !errors.ends_with('\n') || !errors.starts_with("usage: conform") {
            c.fail(words, &format!("{} of {} bytes are left to read, and as errors: {errors}", out.len(), trace.len()));
        }
        c.cases += 1;
    }
}

/// Every answer that the program can give, to be met at least once in a run of the usual length.
fn expected_answers() -> Vec<String> {
    let codes = (1..=9).chain([11, 12]).chain(22..=27).chain([71, 73]);
    codes.map(|n| format!("refused {n}")).chain(["report".to_string()]).collect()
}

fn be_the_program() {
    let table = fs::read("route.tab").unwrap_or_default();
    let mut trace = Vec::new();
    let _ = std::io::stdin().read_to_end(&mut trace);
    print!("{}", oracle::program(&table, &trace));
}

fn main() {
    let args: Vec<String> = std::env::args().skip(1).collect();
    if args.len() == 1 && args[0] == "--program" {
        return be_the_program();
    }
    let numbers: Vec<u64> = args.iter().skip(2).filter_map(|word| word.parse().ok()).collect();
    if args.len() < 2 || numbers.len() != args.len() - 2 || numbers.len() > 2 {
        eprintln!("usage: conform_test BINARY EXAMPLES [ROUNDS] [SEED], or conform_test --program");
        std::process::exit(2);
    }
    let rounds = numbers.first().copied().unwrap_or(DEFAULT_ROUNDS);
    let seed = numbers.get(1).copied().unwrap_or(DEFAULT_SEED);
    println!("conform_test {rounds} {seed}");
    let folder = std::env::temp_dir().join(format!("conform_test.{}", std::process::id()));
    fs::create_dir_all(&folder).unwrap();
    let binary = fs::canonicalize(&args[0]).unwrap_or_else(|error| {
        println!("{}: {error}", args[0]);
        std::process::exit(1);
    });
    let mut c = Check { binary, folder, seed, cases: 0, answers: BTreeMap::new() };
    examples(&mut c, Path::new(&args[1]));
    hand_counted(&mut c);
    refused_tables(&mut c);
    refused_traces(&mut c);
    unreadable(&mut c);
    failing_outputs(&mut c);
    arguments(&mut c);
    long_inputs(&mut c, &mut Rng::new(seed));
    if rounds > DEFAULT_ROUNDS {
        huge_inputs(&mut c);
    }
    for round in 0..rounds {
        c.seed = seed.wrapping_add(round);
        let mut rng = Rng::new(c.seed);
        random_round(&mut c, &mut rng);
    }
    let counts: Vec<String> = c.answers.iter().map(|(key, count)| format!("{key} ({count})")).collect();
    println!("{}", counts.join(", "));
    if rounds >= DEFAULT_ROUNDS {
        let missing: Vec<String> = expected_answers().into_iter().filter(|key| !c.answers.contains_key(key)).collect();
        if !missing.is_empty() {
            println!("answers that never came: {missing:?}");
            std::process::exit(1);
        }
    }
    fs::remove_dir_all(&c.folder).unwrap();
    println!("{} outputs agree", c.cases);
}
