//! The replay tuned by hand in Rust: flat arrays, u32 counters, one look-up by activity and kind, a mask of kinds for
//! doubles. It is what the library is measured against, so it does the same work: the same refusals in the same order,
//! the same records, the same report.

use std::io::Write;

const MAX_EVENTS: u32 = 1_000_000;
const MAX_OBJECTS: usize = 1024;

#[inline(always)]
fn word(bytes: &[u8], at: usize) -> u32 {
    u32::from_le_bytes(bytes[at..at + 4].try_into().unwrap())
}

#[inline(always)]
fn put(bytes: &mut [u8], at: usize, value: u32) {
    bytes[at..at + 4].copy_from_slice(&value.to_le_bytes());
}

#[inline(always)]
fn add_one(bytes: &mut [u8], at: usize) {
    let new = word(bytes, at) + 1;
    put(bytes, at, new);
}

/// The starts of `N` bodies and the end, or `None` where the layout is broken.
fn layout<const N: usize>(file: &[u8]) -> Option<[usize; N]> {
    let mut starts = [0; N];
    let mut at = 8 * N;
    for (i, start) in starts.iter_mut().enumerate() {
        if word(file, 8 * i) as usize != at {
            return None;
        }
        *start = at;
        at += word(file, 8 * i + 4) as usize;
        if at > file.len() {
            return None;
        }
    }
    (at == file.len()).then_some(starts)
}

// ---------------------------------------------------------------- the net

#[derive(Clone, Copy, Default)]
struct Arc {
    input: u8,
    output: u8,
}

pub struct Net {
    kinds: usize,
    places: usize,
    activities: usize,
    source: [u8; 8],
    sink: [u8; 8],
    kind_of: [u8; 64],
    arc_count: [u8; 64],
    /// the kinds that an activity takes, one bit each
    mask: [u8; 64],
    /// by activity * 8 + kind
    arcs: [Arc; 512],
}

pub fn load(table: &[u8]) -> Result<Net, u32> {
    if table.len() < 32 || table.len() > 4704 {
        return Err(1);
    }
    let Some([kinds_at, places_at, activities_at, arcs_at]) = layout::<4>(table) else { return Err(2) };
    let kinds_len = places_at - kinds_at;
    let arcs_len = table.len() - arcs_at;
    if kinds_len % 8 != 0 || (activities_at - places_at) % 4 != 0 || (arcs_at - activities_at) % 4 != 0 || arcs_len % 8 != 0 {
        return Err(2);
    }
    let mut net = Net {
        kinds: kinds_len / 8,
        places: (activities_at - places_at) / 4,
        activities: (arcs_at - activities_at) / 4,
        source: [0; 8],
        sink: [0; 8],
        kind_of: [0; 64],
        arc_count: [0; 64],
        mask: [0; 64],
        arcs: [Arc::default(); 512],
    };
    if net.kinds == 0 || net.kinds > 8 || net.places < 2 || net.places > 64 || net.activities == 0 || net.activities > 64 {
        return Err(3);
    }
    for p in 0..net.places {
        let kind = word(table, places_at + 4 * p);
        if kind as usize >= net.kinds {
            return Err(4);
        }
        net.kind_of[p] = kind as u8;
    }
    for k in 0..net.kinds {
        let (source, sink) = (word(table, kinds_at + 8 * k) as usize, word(table, kinds_at + 8 * k + 4) as usize);
        let mine = |p: usize| p < net.places && net.kind_of[p] as usize == k;
        if !mine(source) || !mine(sink) || source == sink {
            return Err(5);
        }
        net.source[k] = source as u8;
        net.sink[k] = sink as u8;
    }
    let mut sum = 0;
    for a in 0..net.activities {
        let count = word(table, activities_at + 4 * a);
        if count == 0 || count > 8 {
            return Err(6);
        }
        net.arc_count[a] = count as u8;
        sum += count as usize;
    }
    if sum != arcs_len / 8 {
        return Err(6);
    }
    let body = &table[arcs_at..];
    for arc in body.chunks_exact(8) {
        let (input, output) = (word(arc, 0) as usize, word(arc, 4) as usize);
        if input >= net.places || output >= net.places || net.kind_of[input] != net.kind_of[output] {
            return Err(7);
        }
    }
    // the places that each place leads to
    let mut leads = [0u64; 64];
    let mut rest = body.chunks_exact(8);
    for a in 0..net.activities {
        for arc in rest.by_ref().take(net.arc_count[a] as usize) {
            let (input, output) = (word(arc, 0) as u8, word(arc, 4) as u8);
            let kind = net.kind_of[input as usize & 63] & 7;
            if net.mask[a] & (1 << kind) != 0 {
                return Err(8);
            }
            net.mask[a] |= 1 << kind;
            net.arcs[a * 8 + kind as usize] = Arc { input, output };
            leads[input as usize & 63] |= 1 << output;
        }
    }
    for k in 0..net.kinds {
        let (mut reached, mut open) = (1u64 << net.source[k], 1u64 << net.source[k]);
        while open != 0 {
            let here = open.trailing_zeros() as usize;
            open &= open - 1;
            let new = leads[here] & !reached;
            reached |= new;
            open |= new;
        }
        if reached & (1 << net.sink[k]) == 0 {
            return Err(9);
        }
    }
    Ok(net)
}

// ---------------------------------------------------------------- the replay in memory

pub struct Replay {
    closed: bool,
    events: u32,
    closing_jumps: u32,
    objects: usize,
    kind: [u8; MAX_OBJECTS],
    place: [u8; MAX_OBJECTS],
    fired: [u32; 64],
    jumps: [u32; 64],
    /// by place left * 64 + place reached
    pairs: [u32; 4096],
}

impl Replay {
    pub fn start(net: &Net, register: &[u8]) -> Result<Box<Replay>, u32> {
        let objects = register.len() / 4;
        if objects == 0 || objects > MAX_OBJECTS {
            return Err(11);
        }
        let mut replay = Box::new(Replay {
            objects,
            kind: [0; MAX_OBJECTS],
            place: [0; MAX_OBJECTS],
            closed: false,
            events: 0,
            closing_jumps: 0,
            fired: [0; 64],
            jumps: [0; 64],
            pairs: [0; 4096],
        });
        for (o, row) in register.chunks_exact(4).enumerate() {
            let kind = word(row, 0) as usize;
            if kind >= net.kinds {
                return Err(12);
            }
            replay.kind[o] = kind as u8;
            replay.place[o] = net.source[kind];
        }
        Ok(replay)
    }

    /// An event: 0, or the first of 21 to 27. `objects` holds whole rows.
    #[inline(always)]
    pub fn event(&mut self, net: &Net, activity: u32, objects: &[u8]) -> u32 {
        if self.closed {
            return 21;
        }
        if self.events >= MAX_EVENTS {
            return 22;
        }
        let activity = activity as usize;
        if activity >= net.activities {
            return 23;
        }
        let activity = activity & 63;
        if objects.len() != 4 * net.arc_count[activity] as usize {
            return 24;
        }
        // one pass where nothing is wrong: every kind taken and none twice leaves no bit
        let mut left = net.mask[activity];
        let mut wrong = false;
        for row in objects.chunks_exact(4) {
            let object = word(row, 0) as usize;
            if object >= self.objects {
                return 25;
            }
            let bit = 1u8 << (self.kind[object & 1023] & 7);
            wrong |= left & bit == 0;
            left &= !bit;
        }
        if wrong {
            return self.refused_kinds(net, activity, objects);
        }
        let mut jumped = 0;
        for row in objects.chunks_exact(4) {
            let object = word(row, 0) as usize & 1023;
            let arc = net.arcs[activity * 8 + (self.kind[object] & 7) as usize];
            let stood = self.place[object];
            // counted without a branch, which the jumps of a deviating trace would mispredict
            let jump = (stood != arc.input) as u32;
            self.pairs[(stood & 63) as usize * 64 + (arc.input & 63) as usize] += jump;
            jumped += jump;
            self.place[object] = arc.output;
        }
        self.jumps[activity] += jumped;
        self.fired[activity] += 1;
        self.events += 1;
        0
    }

    #[cold]
    fn refused_kinds(&self, net: &Net, activity: usize, objects: &[u8]) -> u32 {
        let kind = |row: &[u8]| self.kind[word(row, 0) as usize & 1023];
        if objects.chunks_exact(4).any(|row| net.mask[activity] & (1 << kind(row)) == 0) {
            26
        } else {
            27
        }
    }

    pub fn close(&mut self, net: &Net) -> u32 {
        if self.closed {
            return 31;
        }
        for o in 0..self.objects {
            let sink = net.sink[(self.kind[o] & 7) as usize];
            if self.place[o] != sink {
                self.pairs[(self.place[o] & 63) as usize * 64 + (sink & 63) as usize] += 1;
                self.closing_jumps += 1;
                self.place[o] = sink;
            }
        }
        self.closed = true;
        0
    }
}

// ---------------------------------------------------------------- records

/// A record that none of 41 to 47 applies to: its net and where its bodies start.
struct Record {
    net: Net,
    starts: [usize; 5],
    objects: usize,
}

fn refusal(code: u32, second: u32) -> u64 {
    code as u64 | (second as u64) << 32
}

fn check(record: &[u8]) -> Result<Record, u64> {
    if record.len() < 40 || record.len() > 29_844 {
        return Err(41);
    }
    let Some(starts) = layout::<5>(record) else { return Err(42) };
    let [table_at, register_at, positions_at, counts_at, pairs_at] = starts;
    let net = load(&record[table_at..register_at]).map_err(|code| refusal(43, code))?;
    let register = &record[register_at..positions_at];
    if register.len() % 4 != 0 {
        return Err(refusal(44, 0));
    }
    let objects = register.len() / 4;
    if objects == 0 || objects > MAX_OBJECTS {
        return Err(refusal(44, 11));
    }
    let positions = &record[positions_at..counts_at];
    let counts = &record[counts_at..pairs_at];
    let pairs = &record[pairs_at..];
    if register.chunks_exact(4).fold(false, |bad, row| bad | (word(row, 0) as usize >= net.kinds)) {
        return Err(refusal(44, 12));
    }
    if positions.len() != register.len() {
        return Err(45);
    }
    let closed = counts.len() >= 4 && word(counts, 0) == 1;
    let mut of_kind = [0u32; 8];
    let mut bad = false;
    for (row, position) in register.chunks_exact(4).zip(positions.chunks_exact(4)) {
        let kind = word(row, 0) & 7;
        let place = word(position, 0);
        of_kind[kind as usize] += 1;
        bad |= place as usize >= net.places || net.kind_of[place as usize & 63] as u32 != kind;
        bad |= closed && place != net.sink[kind as usize] as u32;
    }
    if bad {
        return Err(45);
    }
    if counts.len() != 12 + 8 * net.activities {
        return Err(46);
    }
    let (flag, events, closing_jumps) = (word(counts, 0), word(counts, 4), word(counts, 8));
    if flag > 1 || events > MAX_EVENTS || closing_jumps as usize > objects || (flag == 0 && closing_jumps != 0) {
        return Err(46);
    }
    let (mut fired_sum, mut jumps_sum) = (0u64, closing_jumps as u64);
    let mut consumed = [0u64; 64];
    for (a, row) in counts[12..].chunks_exact(8).enumerate() {
        let (fired, jumps) = (word(row, 0) as u64, word(row, 4) as u64);
        if jumps > fired * net.arc_count[a & 63] as u64 {
            return Err(46);
        }
        fired_sum += fired;
        jumps_sum += jumps;
        let mut mask = net.mask[a & 63];
        while mask != 0 {
            let kind = mask.trailing_zeros() as usize;
            mask &= mask - 1;
            consumed[net.arcs[(a & 63) * 8 + kind].input as usize & 63] += fired;
        }
    }
    if fired_sum != events as u64 {
        return Err(46);
    }
    if closed {
        for k in 0..net.kinds {
            consumed[net.sink[k] as usize & 63] += of_kind[k] as u64;
        }
    }
    if pairs.len() != 4 * net.places * net.places {
        return Err(47);
    }
    // for each kind, the columns where a jump cannot lead
    let mut shut = [[u32::MAX; 64]; 8];
    for p in 0..net.places {
        shut[net.kind_of[p] as usize & 7][p] = 0;
    }
    let mut entered = [0u64; 64];
    let mut impossible = 0;
    for (from, row) in pairs.chunks_exact(4 * net.places).enumerate() {
        let shut = &shut[net.kind_of[from & 63] as usize & 7];
        for ((cell, entered), shut) in row.chunks_exact(4).zip(&mut entered).zip(shut) {
            let count = word(cell, 0);
            *entered += count as u64;
            impossible |= count & shut;
        }
        impossible |= word(row, 4 * from);
    }
    if impossible != 0 || entered.iter().sum::<u64>() != jumps_sum || entered.iter().zip(&consumed).any(|(e, c)| e > c) {
        return Err(47);
    }
    Ok(Record { net, starts, objects })
}

/// The same as the C function: a check of the record, then the event in its bytes.
pub fn conform_event(trail: &mut [u8], activity: u32, objects: &[u8]) -> u64 {
    let Record { net, starts, objects: object_count } = match check(trail) {
        Ok(record) => record,
        Err(answer) => return answer,
    };
    let [_, register_at, positions_at, counts_at, pairs_at] = starts;
    if word(trail, counts_at) == 1 {
        return 21;
    }
    if word(trail, counts_at + 4) >= MAX_EVENTS {
        return 22;
    }
    let activity = activity as usize;
    if activity >= net.activities {
        return 23;
    }
    if objects.len() != 4 * net.arc_count[activity] as usize {
        return 24;
    }
    if objects.chunks_exact(4).any(|row| word(row, 0) as usize >= object_count) {
        return 25;
    }
    let kind_of = |trail: &[u8], row: &[u8]| word(trail, register_at + 4 * word(row, 0) as usize) as usize & 7;
    let mut seen = 0u8;
    let mut twice = false;
    for row in objects.chunks_exact(4) {
        let bit = 1 << kind_of(trail, row);
        if net.mask[activity] & bit == 0 {
            return 26;
        }
        twice |= seen & bit != 0;
        seen |= bit;
    }
    if twice {
        return 27;
    }
    for row in objects.chunks_exact(4) {
        let arc = net.arcs[activity * 8 + kind_of(trail, row)];
        let position_at = positions_at + 4 * word(row, 0) as usize;
        let stood = word(trail, position_at) as usize;
        if stood != arc.input as usize {
            add_one(trail, pairs_at + 4 * (stood * net.places + arc.input as usize));
            add_one(trail, counts_at + 16 + 8 * activity);
        }
        put(trail, position_at, arc.output as u32);
    }
    add_one(trail, counts_at + 12 + 8 * activity);
    add_one(trail, counts_at + 4);
    0
}

pub fn conform_restore(record: &[u8], trail: &mut [u8]) -> u64 {
    match check(record) {
        Err(answer) => answer,
        Ok(_) if trail.len() < record.len() => 61,
        Ok(_) => {
            trail[..record.len()].copy_from_slice(record);
            (record.len() as u64) << 32
        }
    }
}

/// The net and the replay of a sound record.
fn taken_up(trail: &[u8]) -> Result<(Net, Box<Replay>), u64> {
    let Record { net, starts, objects } = check(trail)?;
    let [_, register_at, positions_at, counts_at, pairs_at] = starts;
    let mut replay = Replay::start(&net, &trail[register_at..positions_at]).map_err(u64::from)?;
    for o in 0..objects {
        replay.place[o] = word(trail, positions_at + 4 * o) as u8;
    }
    replay.closed = word(trail, counts_at) == 1;
    replay.events = word(trail, counts_at + 4);
    replay.closing_jumps = word(trail, counts_at + 8);
    for a in 0..net.activities {
        replay.fired[a] = word(trail, counts_at + 12 + 8 * a);
        replay.jumps[a] = word(trail, counts_at + 16 + 8 * a);
    }
    for from in 0..net.places {
        for to in 0..net.places {
            replay.pairs[from * 64 + to] = word(trail, pairs_at + 4 * (from * net.places + to));
        }
    }
    Ok((net, replay))
}

/// Events one after the other on a trail: the trail is taken up once, and put down at the end. How many were accepted.
pub fn bench_events(trail: &mut [u8], events: &[u8]) -> u64 {
    let Ok((net, mut replay)) = taken_up(trail) else { return 0 };
    let mut accepted = 0;
    let mut at = 0;
    while at + 8 <= events.len() {
        let activity = word(events, at);
        let end = at + 8 + 4 * word(events, at + 4) as usize;
        if end > events.len() {
            break;
        }
        accepted += (replay.event(&net, activity, &events[at + 8..end]) == 0) as u64;
        at = end;
    }
    let starts = layout::<5>(trail).unwrap();
    let [_, _, positions_at, counts_at, pairs_at] = starts;
    for o in 0..replay.objects {
        put(trail, positions_at + 4 * o, replay.place[o] as u32);
    }
    put(trail, counts_at + 4, replay.events);
    for a in 0..net.activities {
        put(trail, counts_at + 12 + 8 * a, replay.fired[a]);
        put(trail, counts_at + 16 + 8 * a, replay.jumps[a]);
    }
    for from in 0..net.places {
        for to in 0..net.places {
            put(trail, pairs_at + 4 * (from * net.places + to), replay.pairs[from * 64 + to]);
        }
    }
    accepted
}

// ---------------------------------------------------------------- the program

/// Standard input through a fixed window.
struct Input<R: std::io::Read> {
    source: R,
    window: Box<[u8; 1 << 16]>,
    start: usize,
    end: usize,
}

impl<R: std::io::Read> Input<R> {
    /// The next `count` bytes, not yet taken; fewer only where the input ends.
    #[inline(always)]
    fn peek(&mut self, count: usize) -> &[u8] {
        if self.end - self.start < count {
            self.fill(count);
        }
        &self.window[self.start..self.end.min(self.start + count)]
    }

    #[cold]
    fn fill(&mut self, count: usize) {
        self.window.copy_within(self.start..self.end, 0);
        self.end -= self.start;
        self.start = 0;
        while self.end < count {
            match self.source.read(&mut self.window[self.end..]) {
                Ok(0) | Err(_) => return,
                Ok(n) => self.end += n,
            }
        }
    }
}

/// A trail from a stream, replayed and closed, or the refusal and the events accepted before it.
fn replay_stream<R: std::io::Read>(net: &Net, source: R) -> Result<Box<Replay>, (u32, u32)> {
    let mut input = Input { source, window: Box::new([0; 1 << 16]), start: 0, end: 0 };
    let head = input.peek(16);
    if head.len() < 16 {
        return Err((71, 0));
    }
    let (register_at, register_len) = (word(head, 0), word(head, 4) as u64);
    let (events_at, events_len) = (word(head, 8) as u64, word(head, 12) as u64);
    if register_at != 16 || register_len % 4 != 0 || events_at != 16 + register_len {
        return Err((71, 0));
    }
    input.start += 16;
    if register_len > 4 * MAX_OBJECTS as u64 {
        let mut left = register_len;
        while left > 0 {
            let part = input.peek(left.min(1 << 16) as usize).len();
            if part == 0 {
                return Err((71, 0));
            }
            input.start += part;
            left -= part as u64;
        }
        return Err((11, 0));
    }
    let register = input.peek(register_len as usize);
    if register.len() < register_len as usize {
        return Err((71, 0));
    }
    let mut replay = Replay::start(net, register).map_err(|code| (code, 0))?;
    input.start += register_len as usize;
    let mut left = events_len;
    while left > 0 {
        // an event has at most 40 bytes: while as many are there and left, nothing has to be asked of it but its own numbers
        input.peek(40);
        let (mut at, end) = (input.start, input.end);
        while end - at >= 40 && left >= 40 {
            let seen: &[u8; 40] = input.window[at..at + 40].try_into().unwrap();
            let (activity, count) = (word(seen, 0), word(seen, 4) as usize);
            if count > 8 || replay.event(net, activity, &seen[8..8 + 4 * count]) != 0 {
                break;
            }
            at += 8 + 4 * count;
            left -= 8 + 4 * count as u64;
        }
        input.start = at;
        if left == 0 {
            break;
        }
        let accepted = replay.events;
        let seen = input.peek(40);
        let there = left.min(seen.len() as u64) as usize;
        if there < 8 {
            return Err((73, accepted));
        }
        let (activity, count) = (word(seen, 0), word(seen, 4) as usize);
        let end = 8 + 4 * count.min(8);
        if there < end || count > 8 {
            let code = match activity as usize {
                _ if accepted >= MAX_EVENTS => 22,
                a if a >= net.activities => 23,
                a if count != net.arc_count[a] as usize => 24,
                _ => 73,
            };
            return Err((code, accepted));
        }
        let code = replay.event(net, activity, &seen[8..end]);
        if code != 0 {
            return Err((code, accepted));
        }
        input.start += end;
        left -= end as u64;
    }
    if !input.peek(1).is_empty() {
        return Err((73, replay.events));
    }
    replay.close(net);
    Ok(replay)
}

fn decimal(out: &mut Vec<u8>, number: u32) {
    let mut digits = [0; 10];
    let mut at = 10;
    let mut left = number;
    loop {
        at -= 1;
        digits[at] = b'0' + (left % 10) as u8;
        left /= 10;
        if left == 0 {
            break;
        }
    }
    out.extend_from_slice(&digits[at..]);
}

fn line(out: &mut Vec<u8>, name: &str, numbers: &[u32], fitness: Option<(u32, u32)>) {
    out.extend_from_slice(name.as_bytes());
    for &number in numbers {
        out.push(b' ');
        decimal(out, number);
    }
    if let Some((jumps, transfers)) = fitness {
        out.push(b' ');
        if transfers == 0 {
            out.push(b'-');
        } else {
            let nearest = (2000 * (transfers - jumps) as u64 + transfers as u64) / (2 * transfers as u64);
            let thousandths = if jumps == 0 { 1000 } else { nearest.min(999) as u32 };
            let digit = |n: u32| b'0' + (n % 10) as u8;
            out.extend_from_slice(&[digit(thousandths / 1000), b'.']);
            out.extend_from_slice(&[digit(thousandths / 100), digit(thousandths / 10), digit(thousandths)]);
        }
    }
    out.push(b'\n');
}

fn report(net: &Net, replay: &Replay) -> Vec<u8> {
    let (mut consumed, mut entered, mut left) = ([0u32; 64], [0u32; 64], [0u32; 64]);
    for a in 0..net.activities {
        for k in 0..net.kinds {
            if net.mask[a] & (1 << k) != 0 {
                consumed[net.arcs[a * 8 + k].input as usize] += replay.fired[a];
            }
        }
    }
    for o in 0..replay.objects {
        consumed[net.sink[replay.kind[o] as usize] as usize] += 1;
    }
    for from in 0..net.places {
        for to in 0..net.places {
            entered[to] += replay.pairs[from * 64 + to];
            left[from] += replay.pairs[from * 64 + to];
        }
    }
    let jumps = entered.iter().sum();
    let transfers = consumed.iter().sum();
    let mut out = Vec::with_capacity(82_000);
    line(&mut out, "trail", &[replay.objects as u32, replay.events, jumps, transfers], Some((jumps, transfers)));
    for p in 0..net.places {
        line(&mut out, "place", &[p as u32, consumed[p], entered[p], left[p]], Some((entered[p], consumed[p])));
    }
    for a in 0..net.activities {
        let moved = replay.fired[a] * net.arc_count[a] as u32;
        line(&mut out, "act", &[a as u32, replay.fired[a], moved, replay.jumps[a]], Some((replay.jumps[a], moved)));
    }
    for from in 0..net.places {
        for to in 0..net.places {
            let count = replay.pairs[from * 64 + to];
            if count > 0 {
                line(&mut out, "jump", &[from as u32, to as u32, count], None);
            }
        }
    }
    out
}

/// The program: `route.tab` and standard input, the report on standard output.
pub fn program() {
    let table = std::fs::read("route.tab").unwrap_or_default();
    let result = load(&table).map_err(|code| (code, 0)).and_then(|net| {
        // standard input without the library's own buffer
        let input = unsafe { <std::fs::File as std::os::fd::FromRawFd>::from_raw_fd(0) };
        let input = std::mem::ManuallyDrop::new(input);
        replay_stream(&net, &*input).map(|replay| report(&net, &replay))
    });
    let out = match result {
        Ok(report) => report,
        Err((code, accepted)) => {
            let mut out = Vec::new();
            line(&mut out, "refused", &[code, accepted], None);
            out
        }
    };
    let _ = std::io::stdout().write_all(&out);
}
