//! Compares the C functions of the archive libclient.a with the oracle: answers, lent memory, and memory around it.
//!
//!     client_test [ROUNDS] [SEED]
//!
//! Round i is made from the seed SEED + i alone, so a round that fails is tried again with `client_test 1 THAT_SEED`.
//! Ends with status 1 at the first difference and says where it is.

mod exports;
#[allow(dead_code)]
mod oracle;
#[allow(dead_code)]
mod random;

use exports::*;
use oracle::{bytes_of, client as expected, table_m, PlainRun, Replay, MAX_CHECKPOINT, MAX_EVENTS, REGISTER_M, REPORT_T4};
use random::Rng;
use std::collections::BTreeMap;

const DEFAULT_ROUNDS: u64 = 300;
const DEFAULT_SEED: u64 = 20_210_521;

// ---------------------------------------------------------------- lent memory with guards

const GUARD: usize = 64;

fn pattern(i: usize) -> u8 {
    (i * 151 + 89) as u8
}

/// A copy of some bytes between two guards, at any alignment.
struct Lent {
    memory: Vec<u8>,
    start: usize,
    len: usize,
}

impl Lent {
    fn of(bytes: &[u8], shift: usize) -> Lent {
        let start = GUARD + shift;
        let mut memory: Vec<u8> = (0..start + bytes.len() + GUARD).map(pattern).collect();
        memory[start..start + bytes.len()].copy_from_slice(bytes);
        Lent { memory, start, len: bytes.len() }
    }

    fn ptr(&self) -> *const u8 {
        self.memory[self.start..].as_ptr()
    }

    fn mut_ptr(&mut self) -> *mut u8 {
        self.memory[self.start..].as_mut_ptr()
    }

    /// Where the memory differs from what it should hold; positions count from the lent part's start.
    fn difference(&self, bytes: &[u8]) -> Option<(i64, u8, u8)> {
        if bytes.len() == self.len {
            let inside = &self.memory[self.start..self.start + self.len];
            let untouched = |range: std::ops::Range<usize>| range.into_iter().all(|i| self.memory[i] == pattern(i));
            if inside == bytes && untouched(0..self.start) && untouched(self.start + self.len..self.memory.len()) {
                return None;
            }
        }
        (0..self.memory.len()).find_map(|i| {
            let inside = i >= self.start && i < self.start + self.len;
            let want = if inside { bytes[i - self.start] } else { pattern(i) };
            (self.memory[i] != want).then_some((i as i64 - self.start as i64, self.memory[i], want))
        })
    }
}

/// Bytes to be written over: a pattern that no call writes by chance.
fn blank(len: usize) -> Vec<u8> {
    (0..len).map(|i| pattern(i) ^ 0x5a).collect()
}

// ---------------------------------------------------------------- one call on both sides

/// The rounds' state: what to print where something differs, and how often each answer came.
struct Check {
    seed: u64,
    what: String,
    calls: u64,
    answers: BTreeMap<(&'static str, u32, u32), u64>,
    shift: usize,
}

/// Ends the run where something that must hold does not.
macro_rules! demand {
    ($check:expr, $holds:expr, $message:expr) => {{
        let holds = $holds;
        $check.demand(holds, $message);
    }};
}

/// For each call that writes a line or counts, a method that compares it with the oracle's function of the same name.
macro_rules! writes {
    ($($name:ident($($number:ident),*) = $library:ident;)*) => {
        $(fn $name(&mut self, trail: &[u8], $($number: u32,)* room: usize) -> u64 {
            let library = |t, n, w, m| unsafe { $library(t, n, $($number,)* w, m) };
            self.write(stringify!($name), trail, &[$($number),*], room, library, |t, w| expected::$name(t, $($number,)* w))
        })*
    };
}

/// A lent part: its name, the memory, and what it should hold before and after the call.
type Part<'a> = (&'a str, &'a Lent, &'a [u8], &'a [u8]);

fn text_of(answer: u64) -> String {
    format!("{} with {}", answer as u32, answer >> 32)
}

impl Check {
    fn fail(&self, call: &str, message: &str, inputs: &[(&str, &[u8])]) -> ! {
        println!("DIFFERENCE in {call} ({}, seed {}): {message}", self.what, self.seed);
        for (name, bytes) in inputs {
            let shown: String = bytes.iter().take(2048).map(|b| format!("{b:02x}")).collect();
            let rest = if bytes.len() > 2048 { ".." } else { "" };
            println!("  {name}, {} bytes: {shown}{rest}", bytes.len());
        }
        println!("try again: client_test 1 {}", self.seed);
        std::process::exit(1);
    }

    fn answer(&mut self, call: &'static str, got: u64, want: u64, lent: &[Part]) -> u64 {
        self.calls += 1;
        self.shift = (self.shift + 1) % 8;
        let inputs: Vec<(&str, &[u8])> = lent.iter().map(|(name, _, before, _)| (*name, *before)).collect();
        if got != want {
            self.fail(call, &format!("answered {}, expected {}", text_of(got), text_of(want)), &inputs);
        }
        for (name, memory, _, after) in lent {
            if let Some((at, is, should)) = memory.difference(after) {
                let message = format!("{name} holds {is} at byte {at}, expected {should} (answer {})", text_of(want));
                self.fail(call, &message, &inputs);
            }
        }
        let second = if [43, 44].contains(&(want as u32)) { (want >> 32) as u32 } else { 0 };
        *self.answers.entry((call, want as u32, second)).or_default() += 1;
        want
    }

    fn load(&mut self, table: &[u8]) -> u64 {
        let lent = Lent::of(table, self.shift);
        let got = unsafe { conform_load(lent.ptr(), lent.len) };
        self.answer("load", got, expected::load(table), &[("table", &lent, table, table)])
    }

    fn start(&mut self, table: &[u8], objects: &[u8], trail: &mut Vec<u8>) -> u64 {
        let (t, o, mut r) = (Lent::of(table, self.shift), Lent::of(objects, self.shift / 2), Lent::of(trail, self.shift / 3));
        let before = trail.clone();
        let got = unsafe { conform_start(t.ptr(), t.len, o.ptr(), o.len, r.mut_ptr(), r.len) };
        let want = expected::start(table, objects, trail);
        let lent: [Part; 3] =
            [("table", &t, table, table), ("objects", &o, objects, objects), ("trail", &r, &before, &trail[..])];
        self.answer("start", got, want, &lent)
    }

    fn event(&mut self, trail: &mut Vec<u8>, activity: u32, objects: &[u8]) -> u64 {
        let (mut t, o) = (Lent::of(trail, self.shift), Lent::of(objects, self.shift / 2));
        let before = trail.clone();
        let got = unsafe { conform_event(t.mut_ptr(), t.len, activity, o.ptr(), o.len) };
        let want = expected::event(trail, activity, objects);
        let number = activity.to_le_bytes();
        let shown = Lent::of(&number, 0);
        let lent: [Part; 3] =
            [("trail", &t, &before, &trail[..]), ("activity", &shown, &number, &number), ("objects", &o, objects, objects)];
        self.answer("event", got, want, &lent)
    }

    fn close(&mut self, trail: &mut Vec<u8>) -> u64 {
        let mut t = Lent::of(trail, self.shift);
        let before = trail.clone();
        let got = unsafe { conform_close(t.mut_ptr(), t.len) };
        let want = expected::close(trail);
        self.answer("close", got, want, &[("trail", &t, &before, trail)])
    }

    /// A call that copies one part into another.
    fn copy(
        &mut self,
        [call, from_name, to_name]: [&'static str; 3],
        from: &[u8],
        to: &mut Vec<u8>,
        library: unsafe extern "C" fn(*const u8, usize, *mut u8, usize) -> u64,
        oracle: fn(&[u8], &mut [u8]) -> u64,
    ) -> u64 {
        let (f, mut t) = (Lent::of(from, self.shift), Lent::of(to, self.shift / 2));
        let before = to.clone();
        let got = unsafe { library(f.ptr(), f.len, t.mut_ptr(), t.len) };
        let want = oracle(from, to);
        self.answer(call, got, want, &[(from_name, &f, from, from), (to_name, &t, &before, to)])
    }

    fn restore(&mut self, record: &[u8], trail: &mut Vec<u8>) -> u64 {
        self.copy(["restore", "record", "trail"], record, trail, conform_restore, expected::restore)
    }

    fn save(&mut self, trail: &[u8], record: &mut Vec<u8>) -> u64 {
        self.copy(["save", "trail", "record"], trail, record, conform_save, expected::save)
    }

    /// A call that writes a line or counts into `room` lent bytes.
    fn write(
        &mut self,
        call: &'static str,
        trail: &[u8],
        numbers: &[u32],
        room: usize,
        library: impl Fn(*const u8, usize, *mut u8, usize) -> u64,
        oracle: impl Fn(&[u8], &mut [u8]) -> u64,
    ) -> u64 {
        let before = blank(room);
        let mut after = before.clone();
        let (t, mut w) = (Lent::of(trail, self.shift), Lent::of(&before, self.shift / 2));
        let got = library(t.ptr(), t.len, w.mut_ptr(), w.len);
        let want = oracle(trail, &mut after);
        let given = bytes_of(numbers);
        let shown = Lent::of(&given, 0);
        let lent: [Part; 3] =
            [("trail", &t, trail, trail), ("numbers", &shown, &given, &given), ("written", &w, &before, &after[..])];
        self.answer(call, got, want, &lent)
    }

    writes! {
        trail_line() = conform_trail_line;
        place_line(place) = conform_place_line;
        act_line(activity) = conform_act_line;
        jump_line(from, to) = conform_jump_line;
        trail_counts() = conform_trail_counts;
        place_counts(place) = conform_place_counts;
        act_counts(activity) = conform_act_counts;
        jump_count(from, to) = conform_jump_count;
    }

    fn demand(&self, holds: bool, message: &str) {
        if !holds {
            self.fail("comparison", message, &[]);
        }
    }

    /// Each kind of line and count, into room that is too short, exact and too long.
    fn some_lines(&mut self, rng: &mut Rng, trail: &[u8], places: usize, activities: usize, how_many: usize) {
        for _ in 0..how_many {
            let place = rng.known_or(places, &[0, 1, places as u32, 64, 1 << 8, 1 << 31, u32::MAX]);
            let other = rng.known_or(places, &[0, 1, places as u32, u32::MAX]);
            let activity = rng.known_or(activities, &[0, activities as u32, 64, u32::MAX]);
            let room = rng.pick(&[0, 8, 15, 16, 17, 21, 22, 24, 41, 64]);
            match rng.below(8) {
                0 => self.fitted(room, |c, room| c.trail_line(trail, room)),
                1 => self.fitted(room, |c, room| c.place_line(trail, place, room)),
                2 => self.fitted(room, |c, room| c.act_line(trail, activity, room)),
                3 => self.fitted(room, |c, room| c.jump_line(trail, place, other, room)),
                4 => self.fitted(room, |c, room| c.trail_counts(trail, room)),
                5 => self.fitted(room, |c, room| c.place_counts(trail, place, room)),
                6 => self.fitted(room, |c, room| c.act_counts(trail, activity, room)),
                _ => self.fitted(room, |c, room| c.jump_count(trail, place, other, room)),
            }
        }
    }

    /// A written line again, into exactly its length and one byte less.
    fn fitted(&mut self, room: usize, call: impl Fn(&mut Check, usize) -> u64) {
        call(self, room);
        let answer = call(self, 64);
        let length = (answer >> 32) as usize;
        if answer as u32 == 0 && length > 0 {
            call(self, length);
            call(self, length - 1);
        }
    }

    /// Every call on the same bytes: each gives 41 to 47, or goes on to its own numbers.
    fn every_call(&mut self, rng: &mut Rng, record: &[u8], net: &oracle::Net) {
        let room = rng.pick(&[0, record.len().saturating_sub(1), record.len(), record.len(), record.len() + 9]);
        self.restore(record, &mut blank(room));
        match rng.below(6) {
            0 => {
                self.save(record, &mut blank(room));
            }
            1 => {
                self.close(&mut record.to_vec());
            }
            2 => self.some_lines(rng, record, net.places.len(), net.activities.len(), 1),
            _ => {
                let activity = rng.below(net.activities.len() + 1) as u32;
                let objects: Vec<u32> = (0..rng.below(9)).map(|_| rng.below(8) as u32).collect();
                self.event(&mut record.to_vec(), activity, &bytes_of(&objects));
            }
        }
    }
}

// ---------------------------------------------------------------- rounds

/// Tables sound and damaged, by loading and by starting.
fn round_tables(c: &mut Check, rng: &mut Rng) {
    for _ in 0..40 {
        let net = if rng.percent(10) { random::full_net(rng) } else { random::net(rng) };
        let table = net.table();
        demand!(c, c.load(&table) == 0, "a random net is refused: the generator is wrong");
        for _ in 0..12 {
            let mut damaged = if rng.percent(70) { random::damage_table(rng, &net) } else { table.clone() };
            for _ in 0..rng.pick(&[0, 0, 1, 1, 2]) {
                random::damage_bytes(rng, &mut damaged, 4);
            }
            c.load(&damaged);
            if rng.percent(20) {
                let objects = bytes_of(&random::register(rng, &net, 40));
                c.start(&damaged, &objects, &mut blank(rng.pick(&[0, 2000, MAX_CHECKPOINT])));
            }
        }
    }
}

/// Registers sound and damaged, and lent parts of every length.
fn round_registers(c: &mut Check, rng: &mut Rng) {
    for _ in 0..20 {
        let net = random::net(rng);
        let table = net.table();
        let kinds = random::register(rng, &net, 1024);
        let record = Replay::start(&table, &kinds).unwrap().save();
        let lengths = [record.len(), record.len() - 1, record.len() + 1, record.len() + 500, 0, 39, rng.below(record.len())];
        for length in lengths {
            c.start(&table, &bytes_of(&kinds), &mut blank(length));
        }
        for _ in 0..10 {
            let mut objects = bytes_of(&kinds);
            match rng.below(5) {
                0 => objects.truncate(rng.below(objects.len())),
                1 => objects.resize(rng.pick(&[0, 1, 3, 4, 4095, 4096, 4097, 4100, 8192]), 0),
                2 => objects.extend(vec![0; rng.between(1, 7)]),
                _ => {
                    let at = 4 * rng.below(kinds.len());
                    let unknown = rng.pick(&[net.kinds.len() as u32, 8, 1 << 8, 1 << 24, u32::MAX]);
                    objects[at..at + 4].copy_from_slice(&unknown.to_le_bytes());
                }
            }
            c.start(&table, &objects, &mut blank(rng.pick(&[0, record.len(), MAX_CHECKPOINT])));
        }
    }
}

/// Checkpoints sound and damaged.
fn round_checkpoints(c: &mut Check, rng: &mut Rng) {
    for _ in 0..10 {
        let net = random::net(rng);
        let most = if rng.percent(20) { 1024 } else { 60 };
        let kinds = random::register(rng, &net, most);
        let replay = random::sound_replay(rng, &net, &kinds);
        let record = replay.save();
        let mut trail = blank(record.len() + rng.below(3));
        demand!(c, c.restore(&record, &mut trail) as u32 == 0, "a sound checkpoint is refused: the generator is wrong");
        c.some_lines(rng, &record, net.places.len(), net.activities.len(), 6);
        trail.truncate(record.len());
        for _ in 0..6 {
            let (activity, objects) = random::event(rng, &net, &replay.objects, &replay.places, 50);
            c.event(&mut trail, activity, &bytes_of(&objects));
        }
        c.close(&mut trail.clone());
        for _ in 0..30 {
            let mut damaged = if rng.percent(80) { random::damage_checkpoint(rng, &replay) } else { record.clone() };
            for _ in 0..rng.pick(&[0, 0, 0, 1, 2]) {
                random::damage_bytes(rng, &mut damaged, 5);
            }
            c.every_call(rng, &damaged, &net);
        }
    }
}

/// Each byte of a short checkpoint and of a table changed, each length cut: nothing is left out by chance.
fn round_every_byte(c: &mut Check, rng: &mut Rng) {
    let net = oracle::Net::load(&table_m()).unwrap();
    let replay = random::sound_replay(rng, &net, &REGISTER_M);
    let record = replay.save();
    for at in 0..record.len() {
        let mut damaged = record.clone();
        damaged[at] = damaged[at].wrapping_add(rng.pick(&[1, 255, 128, 2]));
        c.restore(&damaged, &mut blank(record.len()));
        c.restore(&record[..at], &mut blank(record.len()));
    }
    let table = table_m();
    for at in 0..table.len() {
        let mut damaged = table.clone();
        damaged[at] = damaged[at].wrapping_add(rng.pick(&[1, 255, 128, 2]));
        c.load(&damaged);
        c.load(&table[..at]);
    }
}

/// A list of calls on a freshly started trail against the plain run of its events and closes (demand 3).
fn round_calls(c: &mut Check, rng: &mut Rng, long: bool) {
    let net = if rng.percent(10) { random::full_net(rng) } else { random::net(rng) };
    let table = net.table();
    let most = if rng.percent(10) { 1024 } else { 30 };
    let kinds = random::register(rng, &net, most);
    let mut plain = PlainRun::start(&table, &kinds).unwrap();
    let mut replay = plain.replay();
    let mut trail = blank(MAX_CHECKPOINT);
    let length = (c.start(&table, &bytes_of(&kinds), &mut trail) >> 32) as usize;
    trail.truncate(length);
    // the record last written, while no event or close was accepted since
    let mut last: Option<Vec<u8>> = None;
    let faithful = rng.pick(&[0, 50, 90, 100]);
    let calls = if long { rng.between(200, 1200) } else { rng.between(1, 50) };
    let close_chance = if long { 0 } else { 4 };
    for call in 0..calls {
        let answer = match rng.below(100) {
            0..=64 => {
                let refused = rng.percent(12);
                let (activity, objects) = if refused {
                    random::bad_event(rng, &net, &replay.objects, &replay.places)
                } else {
                    random::event(rng, &net, &replay.objects, &replay.places, faithful)
                };
                let mut list = bytes_of(&objects);
                if refused && rng.percent(15) {
                    list.truncate(list.len().saturating_sub(rng.between(1, 3)));
                }
                let whole = list.len() == 4 * objects.len();
                let answer = c.event(&mut trail, activity, &list);
                if whole {
                    let code = plain.event(activity, &objects).err().unwrap_or(0);
                    demand!(c, code as u64 == answer, "an event's answer is not the plain run's");
                    let _ = replay.event(activity, &objects);
                } else {
                    demand!(c, answer != 0, "a list of no whole rows was taken");
                }
                if answer == 0 {
                    last = None;
                }
                answer
            }
            65..=74 => {
                let mut record = blank(length + rng.below(3));
                let answer = c.save(&trail, &mut record);
                record.truncate(length);
                demand!(c, answer == (length as u64) << 32, "saving is refused");
                last = Some(record);
                answer
            }
            75..=82 => match &last {
                Some(record) => c.restore(&record.clone(), &mut trail),
                None => 0,
            },
            83..=90 => {
                let mut bytes = random::damage_checkpoint(rng, &replay);
                random::damage_bytes(rng, &mut bytes, 5);
                if Replay::restore(&bytes).is_err() {
                    c.restore(&bytes, &mut trail)
                } else {
                    0
                }
            }
            91..=95 => {
                c.some_lines(rng, &trail, net.places.len(), net.activities.len(), 1);
                0
            }
            _ if rng.percent(close_chance) || call + 1 == calls => {
                let answer = c.close(&mut trail);
                demand!(c, plain.close().err().unwrap_or(0) as u64 == answer, "a close's answer is not the plain run's");
                let _ = replay.close();
                if answer == 0 {
                    last = None;
                }
                answer
            }
            _ => {
                // a record's room too short: refused, and nothing changes
                let mut short = blank(rng.below(length));
                c.save(&trail, &mut short)
            }
        };
        let _ = answer;
        demand!(c, replay.save() == trail, "the trail is not the checkpoint of the plain run's state");
    }
    c.close(&mut trail);
    let _ = plain.close();
    c.close(&mut trail);
    demand!(c, plain.replay().save() == trail, "the trail is not the checkpoint of the plain run");
    let end = Replay::restore(&trail).unwrap();
    demand!(c, plain.agrees_with(&end), "a count is not the plain run's");
    demand!(c, plain.permitted() == (end.total_jumps() == 0), "no jump, and no permitted run, or the other way round");
    report_by_lines(c, &trail, &end);
}

/// The whole report, line by line in one buffer.
fn report_by_lines(c: &mut Check, trail: &[u8], replay: &Replay) -> String {
    let places = replay.net.places.len() as u32;
    c.trail_line(trail, 41);
    for place in 0..places {
        c.place_line(trail, place, 41);
    }
    for activity in 0..replay.net.activities.len() as u32 {
        c.act_line(trail, activity, 41);
    }
    for from in 0..places.min(2) {
        for to in 0..places {
            c.jump_line(trail, from, to, 41);
        }
    }
    replay.report()
}

// ---------------------------------------------------------------- fixed cases

/// T1 to T11 by the C functions, every limit, and no memory at all.
fn fixed_cases(c: &mut Check) {
    let table = table_m();
    let register = bytes_of(&REGISTER_M);
    let run = |c: &mut Check, kinds: &[u8], events: &[(u32, &[u32])]| {
        let mut trail = blank(MAX_CHECKPOINT);
        let length = c.start(&table, kinds, &mut trail) >> 32;
        trail.truncate(length as usize);
        for (activity, objects) in events {
            c.event(&mut trail, *activity, &bytes_of(objects));
        }
        trail
    };

    c.what = "T1, T2".to_string();
    demand!(c, c.load(&table) == 0, "T1");
    demand!(c, c.load(&table[..31]) == 1, "T2");

    c.what = "T3 to T10".to_string();
    let t3: [(u32, &[u32]); 6] = [(0, &[0]), (1, &[1]), (2, &[0, 1]), (1, &[2]), (2, &[0, 2]), (3, &[0])];
    let t4: [(u32, &[u32]); 5] = [(0, &[0]), (1, &[1]), (2, &[0, 1]), (2, &[0, 2]), (3, &[0])];
    let mut trail = run(c, &register, &t3);
    demand!(c, c.close(&mut trail) == 0, "T3 closes");
    demand!(c, Replay::restore(&trail).unwrap().trail_line() == "trail 3 6 0 11 1.000\n", "T3");
    let mut trail = run(c, &register, &t4);
    demand!(c, c.close(&mut trail) == 0, "T4 closes");
    let t4_closed = trail.clone();
    let replay = Replay::restore(&trail).unwrap();
    demand!(c, report_by_lines(c, &trail, &replay) == REPORT_T4, "T4");
    let stopped = run(c, &register, &t4[..3]);
    let mut resumed = blank(stopped.len());
    demand!(c, c.restore(&stopped, &mut resumed) == (stopped.len() as u64) << 32, "T5 is taken up");
    for (activity, objects) in &t4[3..] {
        c.event(&mut resumed, *activity, &bytes_of(objects));
    }
    c.close(&mut resumed);
    demand!(c, resumed == t4_closed, "T5");
    let mut trail = run(c, &bytes_of(&[0]), &[]);
    c.close(&mut trail);
    demand!(c, Replay::restore(&trail).unwrap().trail_line() == "trail 1 0 1 1 0.000\n", "T6");
    demand!(c, run(c, &register, &[(2, &[1, 0])]) == run(c, &register, &[(2, &[0, 1])]), "T7");
    let mut trail = run(c, &register, &[]);
    demand!(c, c.event(&mut trail, 2, &bytes_of(&[1, 2])) == 27, "T8");
    demand!(c, c.event(&mut trail, 2, &bytes_of(&[0])) == 24, "T9");
    demand!(c, c.event(&mut trail, 3, &bytes_of(&[1])) == 26, "T9");
    demand!(c, c.event(&mut trail, 4, &bytes_of(&[0])) == 23, "T9");
    demand!(c, c.event(&mut trail, 2, &bytes_of(&[0, 3])) == 25, "T9");
    let mut trail = t4_closed;
    demand!(c, c.close(&mut trail) == 31, "T10");
    demand!(c, c.event(&mut trail, 0, &bytes_of(&[0])) == 21, "T10");

    c.what = "T11 and the longest files".to_string();
    demand!(c, c.start(&table, &bytes_of(&[1; 1024]), &mut blank(MAX_CHECKPOINT)) as u32 == 0, "1,024 objects");
    demand!(c, c.start(&table, &bytes_of(&[1; 1025]), &mut blank(MAX_CHECKPOINT)) == 11, "1,025 objects");
    let mut rng = Rng::new(c.seed);
    let full = random::full_net(&mut rng);
    let mut longest = full.table();
    demand!(c, longest.len() == oracle::MAX_TABLE && c.load(&longest) == 0, "the longest table");
    let kinds: Vec<u32> = (0..1024).map(|o| o % 8).collect();
    let mut trail = blank(MAX_CHECKPOINT);
    demand!(c, c.start(&longest, &bytes_of(&kinds), &mut trail) == (MAX_CHECKPOINT as u64) << 32, "the longest checkpoint");
    c.restore(&trail, &mut blank(MAX_CHECKPOINT));
    trail.push(0);
    demand!(c, c.restore(&trail, &mut blank(MAX_CHECKPOINT + 1)) == 41, "one byte more");
    longest.push(0);
    demand!(c, c.load(&longest) == 1, "one byte more");
    for (places, code) in [(64, 0), (65, 3)] {
        let bodies = [bytes_of(&[0, 1]), bytes_of(&vec![0; places]), bytes_of(&[1]), bytes_of(&[0, 1])];
        demand!(c, c.load(&oracle::file_of(&bodies)) == code, "64 places and 65");
    }

    c.what = "the last events (T12) and the largest counts".to_string();
    let net = oracle::Net::load(&table).unwrap();
    let mut replay = Replay::start(&net.table(), &REGISTER_M).unwrap();
    replay.events = MAX_EVENTS - 1;
    replay.fired[2] = MAX_EVENTS - 1;
    let mut trail = replay.save();
    demand!(c, c.event(&mut trail, 2, &bytes_of(&[0, 1])) == 0, "event 1,000,000");
    demand!(c, c.event(&mut trail, 2, &bytes_of(&[0, 1])) == 22, "event 1,000,001");
    demand!(c, c.event(&mut trail, 99, &[]) == 22, "22 before 23");
    demand!(c, c.close(&mut trail) == 0, "closing after the last event");
    demand!(c, c.event(&mut trail, 2, &bytes_of(&[0, 1])) == 21, "21 before 22");
    let mut replay = Replay::start(&full.table(), &kinds).unwrap();
    replay.closed = true;
    replay.events = MAX_EVENTS;
    replay.fired[63] = MAX_EVENTS;
    replay.jumps[63] = 8 * MAX_EVENTS;
    replay.closing_jumps = 1024;
    for object in 0..1024 {
        replay.places[object] = full.kinds[replay.objects[object]].sink;
    }
    for to in 0..64 {
        let from = (0..64).find(|&p| p != to && full.places[p] == full.places[to]).unwrap();
        replay.pairs[from][to] = replay.consumed(to);
    }
    let trail = replay.save();
    demand!(c, replay.trail_line() == "trail 1024 1000000 8001024 8001024 0.000\n", "8,001,024 jumps");
    demand!(c, c.restore(&trail, &mut blank(MAX_CHECKPOINT)) as u32 == 0, "the largest counts");
    report_by_lines(c, &trail, &replay);

    c.what = "no memory at all".to_string();
    let (nothing, none) = (std::ptr::null(), std::ptr::null_mut());
    let trail = run(c, &register, &[]);
    let mut own = trail.clone();
    unsafe {
        demand!(c, conform_load(nothing, 0) == 1, "no table");
        demand!(c, conform_start(table.as_ptr(), table.len(), nothing, 0, none, 0) == 11, "no register");
        demand!(c, conform_start(table.as_ptr(), table.len(), register.as_ptr(), register.len(), none, 0) == 61, "no room");
        demand!(c, conform_event(none, 0, 0, nothing, 0) == 41, "no trail");
        demand!(c, conform_event(own.as_mut_ptr(), own.len(), 0, nothing, 0) == 24, "no objects");
        demand!(c, conform_close(none, 0) == 41, "no trail");
        demand!(c, conform_restore(nothing, 0, none, 0) == 41, "no record");
        demand!(c, conform_restore(trail.as_ptr(), trail.len(), none, 0) == 61, "no room");
        demand!(c, conform_save(trail.as_ptr(), trail.len(), none, 0) == 61, "no room");
        demand!(c, conform_trail_line(trail.as_ptr(), trail.len(), none, 0) == 61, "no room");
        demand!(c, conform_jump_line(trail.as_ptr(), trail.len(), 0, 1, none, 0) == 0, "a line of no bytes into no room");
        demand!(c, conform_jump_line(trail.as_ptr(), trail.len(), 0, 6, none, 0) == 51, "51 before no bytes");
    }
    demand!(c, own == trail, "a refused event changed the trail");
}

/// The lines of the trail, of a place and of an activity that count so many jumps in so many transfers, and their FIT.
fn figure(c: &mut Check, jumps: u64, transfers: u64) -> String {
    // one object and one activity, from place 0 to place 1
    let table = oracle::file_of(&[bytes_of(&[0, 1]), bytes_of(&[0, 0]), bytes_of(&[1]), bytes_of(&[0, 1])]);
    let mut replay = Replay::start(&table, &[0]).unwrap();
    (replay.events, replay.fired[0], replay.jumps[0], replay.pairs[1][0]) = (transfers, transfers, jumps, jumps);
    let trail = replay.save();
    let shown = oracle::fitness(jumps, transfers);
    let lengths = [replay.trail_line(), replay.place_line(0).unwrap(), replay.act_line(0).unwrap()].map(|line| {
        demand!(c, line.ends_with(&format!(" {shown}\n")), "the test itself: a line counts other jumps or transfers");
        line.len()
    });
    let [of_trail, of_place, of_act] = lengths;
    let answers = [c.trail_line(&trail, of_trail), c.place_line(&trail, 0, of_place), c.act_line(&trail, 0, of_act)];
    demand!(c, answers == lengths.map(|length| (length as u64) << 32), "a line with FIT is refused");
    shown
}

/// FIT to the nearest thousandth (A.7): the figures of T13 and A.7, all pairs up to 60, and large ones, halves among them.
fn figures(c: &mut Check) {
    c.what = "T13 and the figures of A.7".to_string();
    #[rustfmt::skip]
    let known = [
        (4, 10, "0.600"), (1, 3, "0.667"), (1, 100_000, "0.999"), (1, 2000, "0.999"), (1, MAX_EVENTS, "0.999"), (3, 2000, "0.999"),
        (1, 16, "0.938"), (0, 1, "1.000"), (0, MAX_EVENTS, "1.000"), (7, 7, "0.000"), (MAX_EVENTS, MAX_EVENTS, "0.000"), (0, 0, "-"),
    ];
    for (jumps, transfers, text) in known {
        demand!(c, figure(c, jumps, transfers) == text, &format!("{jumps} of {transfers} is {text}"));
    }
    c.what = "FIT, all pairs up to 60".to_string();
    for transfers in 0..=60 {
        for jumps in 0..=transfers {
            figure(c, jumps, transfers);
        }
    }
    c.what = "FIT, large numbers".to_string();
    let mut rng = Rng::new(c.seed);
    for _ in 0..500 {
        let transfers = 1 + rng.next() % MAX_EVENTS;
        let (any, few) = (rng.next() % (transfers + 1), rng.next() % (transfers / 1000 + 1));
        figure(c, rng.pick(&[any, few, transfers - few]), transfers);
        // in sixteenths, eightieths and so on FIT is a whole number of half thousandths; one jump beside a half it goes up or down
        let parts = rng.pick(&[16, 80, 400, 2000]);
        let times = 1 + rng.next() % (MAX_EVENTS / parts);
        let half = times * (rng.next() % (parts + 1));
        for jumps in [half.saturating_sub(1), half, (half + 1).min(times * parts)] {
            figure(c, jumps, times * parts);
        }
    }
}

/// The parts of a run: what a round tries, and how.
type Round = fn(&mut Check, &mut Rng);
const PARTS: [(&str, Round); 6] = [
    ("tables", round_tables),
    ("registers", round_registers),
    ("checkpoints", round_checkpoints),
    ("each byte", round_every_byte),
    ("short lists of calls", |c, rng| (0..20).for_each(|_| round_calls(c, rng, false))),
    ("a long list of calls", |c, rng| round_calls(c, rng, true)),
];

/// Every refusal that a call can give, to be met at least once in a run of the usual length.
fn expected_answers() -> Vec<(&'static str, u32, u32)> {
    let mut all: Vec<(&'static str, u32, u32)> = (0..=9).map(|n| ("load", n, 0)).collect();
    all.extend((0..=9).chain([11, 12, 61]).map(|n| ("start", n, 0)));
    all.extend((21..=27).chain([0, 41, 42, 45, 46, 47]).map(|n| ("event", n, 0)));
    all.extend([0, 31, 41, 42, 45, 46, 47].map(|n| ("close", n, 0)));
    all.extend([0, 41, 42, 45, 46, 47, 61].map(|n| ("restore", n, 0)));
    all.extend([0, 41, 42, 45, 46, 47, 61].map(|n| ("save", n, 0)));
    for call in ["event", "restore"] {
        all.extend((1..=9).map(|n| (call, 43, n)));
        all.extend([0, 11, 12].map(|n| (call, 44, n)));
    }
    all.extend([0, 61].map(|n| ("trail_line", n, 0)));
    all.extend([0, 61].map(|n| ("trail_counts", n, 0)));
    for call in ["place_line", "place_counts", "jump_line", "jump_count"] {
        all.extend([0, 51, 61].map(|n| (call, n, 0)));
    }
    for call in ["act_line", "act_counts"] {
        all.extend([0, 52, 61].map(|n| (call, n, 0)));
    }
    all
}

fn main() {
    let numbers: Vec<u64> = std::env::args()
        .skip(1)
        .map(|word| {
            word.parse().unwrap_or_else(|_| {
                eprintln!("usage: client_test [ROUNDS] [SEED]");
                std::process::exit(2)
            })
        })
        .collect();
    let rounds = numbers.first().copied().unwrap_or(DEFAULT_ROUNDS);
    let seed = numbers.get(1).copied().unwrap_or(DEFAULT_SEED);
    println!("client_test {rounds} {seed}");
    let mut c = Check { seed, what: String::new(), calls: 0, answers: BTreeMap::new(), shift: 0 };
    fixed_cases(&mut c);
    figures(&mut c);
    for round in 0..rounds {
        c.seed = seed.wrapping_add(round);
        let mut rng = Rng::new(c.seed);
        // which part a round is follows from its seed, so that one round can be tried alone
        let (what, part) = PARTS[(c.seed % 6) as usize];
        c.what = what.to_string();
        part(&mut c, &mut rng);
    }
    let mut line = String::new();
    for (&(call, code, second), count) in &c.answers {
        let start = format!("{call}:");
        if !line.starts_with(&start) {
            if !line.is_empty() {
                println!("{line}");
            }
            line = start;
        }
        let with = if [43, 44].contains(&code) { format!("/{second}") } else { String::new() };
        line += &format!(" {code}{with} ({count})");
    }
    println!("{line}");
    if rounds >= DEFAULT_ROUNDS {
        let missing: Vec<_> = expected_answers().into_iter().filter(|key| !c.answers.contains_key(key)).collect();
        if !missing.is_empty() {
            println!("answers that never came (call, number, second number): {missing:?}");
            std::process::exit(1);
        }
    }
    println!("{} calls agree", c.calls);
}
