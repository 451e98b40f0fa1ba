//! Random nets, registers, events and checkpoints, and damage to their files. Everything follows from a seed.

use crate::oracle::{bytes_of, file_of, word, words, Arc, Kind, Net, Replay, MAX_EVENTS};

pub struct Rng(u64);

impl Rng {
    pub fn new(seed: u64) -> Rng {
        Rng(seed)
    }

    /// splitmix64
    pub fn next(&mut self) -> u64 {
        self.0 = self.0.wrapping_add(0x9e37_79b9_7f4a_7c15);
        let mut z = self.0;
        z = (z ^ (z >> 30)).wrapping_mul(0xbf58_476d_1ce4_e5b9);
        z = (z ^ (z >> 27)).wrapping_mul(0x94d0_49bb_1331_11eb);
        z ^ (z >> 31)
    }

    /// 0 to n − 1
    pub fn below(&mut self, n: usize) -> usize {
        (self.next() % n as u64) as usize
    }

    pub fn between(&mut self, low: usize, high: usize) -> usize {
        low + self.below(high - low + 1)
    }

    /// A size between two limits, often one of the limits and otherwise small more often than large.
    pub fn size(&mut self, low: usize, high: usize) -> usize {
        match self.below(8) {
            0 => low,
            1 => high,
            2 | 3 => self.between(low, high),
            _ => self.between(low, high.min(low + 6)),
        }
    }

    pub fn percent(&mut self, chance: usize) -> bool {
        self.below(100) < chance
    }

    pub fn pick<T: Copy>(&mut self, of: &[T]) -> T {
        of[self.below(of.len())]
    }

    /// A number below `n`, or one of some others.
    pub fn known_or(&mut self, n: usize, others: &[u32]) -> u32 {
        if self.percent(40) {
            self.below(n) as u32
        } else {
            self.pick(others)
        }
    }

    pub fn shuffle<T>(&mut self, list: &mut [T]) {
        for i in (1..list.len()).rev() {
            list.swap(i, self.below(i + 1));
        }
    }
}

// ---------------------------------------------------------------- nets, registers, events

/// A net that loads.
pub fn net(rng: &mut Rng) -> Net {
    let kind_count = rng.size(1, 8);
    let place_count = rng.size(2 * kind_count, 64);
    let activity_count = rng.size(1, 64);
    net_of(rng, kind_count, place_count, activity_count)
}

/// The longest route table: 8 kinds, 64 places, 64 activities of 8 arcs.
pub fn full_net(rng: &mut Rng) -> Net {
    let mut net = net_of(rng, 8, 64, 64);
    for arcs in &mut net.activities {
        for kind in 0..8 {
            if !arcs.iter().any(|arc| net.places[arc.input] == kind) {
                let Kind { source, sink } = net.kinds[kind];
                arcs.push(Arc { input: source, output: sink });
            }
        }
    }
    net
}

fn net_of(rng: &mut Rng, kind_count: usize, place_count: usize, activity_count: usize) -> Net {
    // two places of each kind at least
    let mut places: Vec<usize> =
        (0..place_count).map(|p| if p < 2 * kind_count { p / 2 } else { rng.below(kind_count) }).collect();
    rng.shuffle(&mut places);
    let mut activities: Vec<Vec<Arc>> = vec![Vec::new(); activity_count];
    let mut kinds = Vec::new();
    let density = rng.pick(&[0, 20, 50, 100]);
    for kind in 0..kind_count {
        let mut mine: Vec<usize> = (0..place_count).filter(|&p| places[p] == kind).collect();
        rng.shuffle(&mut mine);
        kinds.push(Kind { source: mine[0], sink: mine[1] });
        // a path from the source to the sink, each arc in an activity of its own
        let arc_count = rng.between(1, activity_count.min(mine.len() - 1));
        let mut path = vec![mine[0]];
        path.extend(&mine[2..1 + arc_count]);
        path.push(mine[1]);
        let mut order: Vec<usize> = (0..activity_count).collect();
        rng.shuffle(&mut order);
        for i in 0..arc_count {
            activities[order[i]].push(Arc { input: path[i], output: path[i + 1] });
        }
        for &activity in &order[arc_count..] {
            if rng.percent(density) {
                let (input, output) = (rng.pick(&mine), rng.pick(&mine));
                activities[activity].push(Arc { input, output });
            }
        }
    }
    for arcs in &mut activities {
        if arcs.is_empty() {
            let input = rng.below(place_count);
            let same: Vec<usize> = (0..place_count).filter(|&p| places[p] == places[input]).collect();
            arcs.push(Arc { input, output: rng.pick(&same) });
        }
        rng.shuffle(arcs);
    }
    Net { kinds, places, activities }
}

/// The kinds of 1 to `most` objects, at times not of every kind.
pub fn register(rng: &mut Rng, net: &Net, most: usize) -> Vec<u32> {
    let count = match rng.below(8) {
        0 => 1,
        1 => most,
        2 => rng.between(1, most),
        _ => rng.between(1, most.min(24)),
    };
    let used = if rng.percent(20) { rng.between(1, net.kinds.len()) } else { net.kinds.len() };
    (0..count).map(|_| rng.below(used) as u32).collect()
}

/// An event of an activity, its objects where possible those that stand on the input places (in `faithful` percent).
/// Where the register has no object of a kind that the activity takes, it is an event to be refused.
pub fn event(rng: &mut Rng, net: &Net, kinds: &[usize], places: &[usize], faithful: usize) -> (u32, Vec<u32>) {
    let activity = rng.below(net.activities.len());
    let mut objects = Vec::new();
    for arc in &net.activities[activity] {
        let of_kind: Vec<usize> = (0..kinds.len()).filter(|&o| kinds[o] == net.places[arc.input]).collect();
        let ready: Vec<usize> = of_kind.iter().copied().filter(|&o| places[o] == arc.input).collect();
        objects.push(if !ready.is_empty() && rng.percent(faithful) {
            rng.pick(&ready) as u32
        } else if !of_kind.is_empty() {
            rng.pick(&of_kind) as u32
        } else {
            rng.below(kinds.len()) as u32
        });
    }
    rng.shuffle(&mut objects);
    (activity as u32, objects)
}

/// An event that is likely to be refused: one to three things of it changed.
pub fn bad_event(rng: &mut Rng, net: &Net, kinds: &[usize], places: &[usize]) -> (u32, Vec<u32>) {
    let (mut activity, mut objects) = event(rng, net, kinds, places, 50);
    let activity_count = net.activities.len() as u32;
    for _ in 0..rng.pick(&[1, 1, 1, 2, 3]) {
        let at = rng.below(objects.len().max(1));
        match rng.below(7) {
            0 => {
                activity =
                    rng.pick(&[activity_count, activity_count + 1, activity | 1 << 8, activity | 1 << 16, 1 << 31, u32::MAX])
            }
            1 => objects.push(rng.below(kinds.len()) as u32),
            2 => {
                objects.pop();
            }
            3 if !objects.is_empty() => {
                let old = objects[at];
                objects[at] = rng.pick(&[kinds.len() as u32, old | 1 << 10, old | 1 << 16, old | 1 << 31, u32::MAX]);
            }
            4 if !objects.is_empty() => objects[at] = objects[0],
            5 if !objects.is_empty() => objects[at] = rng.below(kinds.len()) as u32,
            _ => objects.resize(rng.pick(&[0, 1, 2, 7, 8, 9, 64]), 0),
        }
    }
    (activity, objects)
}

/// A sound checkpoint that need not come from any trace: positions and counts at will within 45 to 47.
pub fn sound_replay(rng: &mut Rng, net: &Net, kinds: &[u32]) -> Replay {
    let mut replay = Replay::start(&net.table(), kinds).unwrap();
    replay.closed = rng.percent(40);
    for object in 0..kinds.len() {
        let kind = replay.objects[object];
        let of_kind: Vec<usize> = (0..net.places.len()).filter(|&p| net.places[p] == kind).collect();
        replay.places[object] = if replay.closed { net.kinds[kind].sink } else { rng.pick(&of_kind) };
    }
    let limit = rng.pick(&[0, 1, 30, 1000, 65_536, 999_999, MAX_EVENTS, MAX_EVENTS]);
    replay.events = if rng.percent(60) { limit } else { rng.next() % (limit + 1) };
    let mut left = replay.events;
    let activity_count = net.activities.len();
    let turn = rng.below(activity_count);
    for i in 0..activity_count {
        let part = if i + 1 == activity_count || rng.percent(10) { left } else { rng.next() % (left + 1) };
        replay.fired[(turn + i) % activity_count] = part;
        left -= part;
    }
    // jumps into each place up to what was taken from it, then shared out over the activities and the close
    let share = rng.pick(&[0, 1, 50, 100]);
    let mut total = 0;
    for to in 0..net.places.len() {
        let others: Vec<usize> = (0..net.places.len()).filter(|&p| p != to && net.places[p] == net.places[to]).collect();
        let mut left = replay.consumed(to) * share / 100;
        total += left;
        while left > 0 {
            let part = if rng.percent(50) { left } else { 1 + rng.next() % left };
            replay.pairs[rng.pick(&others)][to] += part;
            left -= part;
        }
    }
    if replay.closed {
        let most = total.min(kinds.len() as u64);
        let moved: u64 = (0..activity_count).map(|a| replay.moved(a)).sum();
        let least = total.saturating_sub(moved);
        replay.closing_jumps = least + rng.next() % (most - least + 1);
        total -= replay.closing_jumps;
    }
    let turn = rng.below(activity_count);
    for i in 0..activity_count {
        let activity = (turn + i) % activity_count;
        replay.jumps[activity] = total.min(replay.moved(activity));
        total -= replay.jumps[activity];
    }
    replay
}

// ---------------------------------------------------------------- damage

#[rustfmt::skip]
const NEAR_LIMITS: [u32; 42] = [
    0, 1, 2, 3, 4, 7, 8, 9, 12, 15, 16, 31, 32, 33, 39, 40, 41, 63, 64, 65, 255, 256, 257, 1023, 1024, 1025, 4096, 4704, 4705,
    29844, 65_535, 65_536, 999_999, 1_000_000, 1_000_001, 8_001_024, 1 << 24, (1 << 31) - 1, 1 << 31, u32::MAX - 31,
    u32::MAX - 3, u32::MAX,
];

fn put(bytes: &mut [u8], at: usize, value: u32) {
    bytes[at..at + 4].copy_from_slice(&value.to_le_bytes());
}

/// Another value for a number: near it, near a limit, or the same modulo a power of two.
pub fn other_number(rng: &mut Rng, old: u32) -> u32 {
    match rng.below(5) {
        0 => old.wrapping_add(rng.pick(&[1, 4, 8])),
        1 => old.wrapping_sub(rng.pick(&[1, 4, 8])),
        2 => old ^ (1 << rng.pick(&[3, 6, 8, 10, 16, 20, 24, 31])),
        3 => rng.next() as u32,
        _ => rng.pick(&NEAR_LIMITS),
    }
}

/// Damage that knows nothing of the file but that it has `pairs` pairs of contents.
pub fn damage_bytes(rng: &mut Rng, bytes: &mut Vec<u8>, pairs: usize) {
    let whole_words = bytes.len() / 4;
    if whole_words < 2 {
        bytes.push(rng.next() as u8);
        return;
    }
    let contents = whole_words.min(2 * pairs);
    match rng.below(11) {
        0 => {
            let at = rng.below(bytes.len());
            bytes[at] ^= 1 << rng.below(8);
        }
        1 => {
            let at = rng.below(bytes.len());
            bytes[at] = rng.next() as u8;
        }
        2 | 3 => {
            let at = 4 * rng.below(whole_words);
            let new = other_number(rng, word(bytes, at));
            put(bytes, at, new);
        }
        4 => {
            let at = 4 * rng.below(contents);
            let new = other_number(rng, word(bytes, at));
            put(bytes, at, new);
        }
        5 => {
            let (a, b) = (4 * rng.below(whole_words), 4 * rng.below(whole_words));
            let (old_a, old_b) = (word(bytes, a), word(bytes, b));
            put(bytes, a, old_b);
            put(bytes, b, old_a);
        }
        6 => {
            let cut = if rng.percent(50) { rng.below(bytes.len()) } else { bytes.len() - rng.between(1, 12.min(bytes.len())) };
            bytes.truncate(cut);
        }
        7 => {
            for _ in 0..rng.pick(&[1, 2, 3, 4, 8, 40, 4704, 30_000]) {
                bytes.push(rng.next() as u8);
            }
        }
        8 => {
            // taken out of the middle
            let at = rng.below(bytes.len());
            let end = (at + rng.pick(&[1, 4, 8])).min(bytes.len());
            bytes.drain(at..end);
        }
        _ if contents == 2 * pairs => {
            // lengths that add up to the file's end only at 2^32
            let first = rng.below(pairs);
            let by = rng.pick(&[1 << 31, 1 << 30, u32::MAX - 3, u32::MAX - 7, u32::MAX - 31]);
            let length = word(bytes, 8 * first + 4).wrapping_add(by);
            put(bytes, 8 * first + 4, length);
            for i in first + 1..pairs {
                let start = word(bytes, 8 * i).wrapping_add(by);
                put(bytes, 8 * i, start);
            }
            if first + 1 < pairs {
                let second = rng.between(first + 1, pairs - 1);
                let length = word(bytes, 8 * second + 4).wrapping_sub(by);
                put(bytes, 8 * second + 4, length);
                for i in second + 1..pairs {
                    let start = word(bytes, 8 * i).wrapping_sub(by);
                    put(bytes, 8 * i, start);
                }
            }
        }
        _ => {}
    }
}

/// A file cut into its bodies' numbers, to be put together again with right contents.
struct Parts {
    bodies: Vec<Vec<u8>>,
}

impl Parts {
    fn of(file: &[u8], pairs: usize) -> Parts {
        let body = |i: usize| {
            let start = word(file, 8 * i) as usize;
            file[start..start + word(file, 8 * i + 4) as usize].to_vec()
        };
        Parts { bodies: (0..pairs).map(body).collect() }
    }

    /// The whole numbers of a body; odd bytes after them stay where they are.
    fn numbers(&self, body: usize) -> Vec<u32> {
        let bytes = &self.bodies[body];
        words(&bytes[..bytes.len() / 4 * 4])
    }

    fn set(&mut self, body: usize, numbers: &[u32]) {
        self.bodies[body][..4 * numbers.len()].copy_from_slice(&bytes_of(numbers));
    }

    fn change(&mut self, body: usize, at: usize, new: u32) {
        put(&mut self.bodies[body], 4 * at, new);
    }

    /// Bytes or rows added to or taken from a body's end.
    fn resize(&mut self, rng: &mut Rng, body: usize, row: usize) {
        let bytes = &mut self.bodies[body];
        match rng.below(4) {
            0 => bytes.truncate(bytes.len().saturating_sub(row)),
            1 => {
                let last = bytes.len().saturating_sub(row);
                let copy = bytes[last..].to_vec();
                bytes.extend(copy);
            }
            2 => bytes.truncate(bytes.len().saturating_sub(rng.between(1, 3))),
            _ => bytes.extend(std::iter::repeat(0).take(rng.pick(&[1, 2, 4, 8]))),
        }
    }

    fn file(&self) -> Vec<u8> {
        file_of(&self.bodies)
    }
}

/// Damage to a table whose layout stays right: it reaches the refusals 3 to 9.
pub fn damage_table(rng: &mut Rng, net: &Net) -> Vec<u8> {
    let (kinds, places, activities) = (net.kinds.len(), net.places.len(), net.activities.len());
    let arcs: usize = net.activities.iter().map(Vec::len).sum();
    let mut parts = Parts::of(&net.table(), 4);
    for _ in 0..rng.pick(&[1, 1, 1, 2, 3]) {
        // an earlier change may have resized a body: numbers are then changed where they still are
        let at = |rng: &mut Rng, parts: &Parts, body: usize, most: usize| {
            let there = parts.bodies[body].len() / 4;
            if there == 0 {
                None
            } else {
                Some(rng.below(most.min(there)))
            }
        };
        match rng.below(16) {
            0 => parts.resize(rng, 0, 8),
            1 => parts.resize(rng, 1, 4),
            2 => parts.resize(rng, 2, 4),
            3 => parts.resize(rng, 3, 8),
            4 => {
                let body = rng.below(4);
                let row = [8, 4, 4, 8][body];
                let rows = rng.pick(&[[0, 1, 8, 9], [0, 1, 64, 65]][(body > 0) as usize]);
                parts.bodies[body].resize(row * rows, 0);
            }
            5 => {
                if let Some(i) = at(rng, &parts, 1, places) {
                    let new = rng.known_or(kinds, &[kinds as u32, kinds as u32 + 1, 8, 256, 1 << 16, u32::MAX]);
                    parts.change(1, i, new);
                }
            }
            6 | 7 => {
                if let Some(i) = at(rng, &parts, 0, 2 * kinds) {
                    let new = rng.known_or(places, &[places as u32, 64, 1 << 8, 1 << 31, u32::MAX]);
                    parts.change(0, i, new);
                }
            }
            8 => {
                let mut numbers = parts.numbers(0);
                if numbers.len() >= 2 {
                    let k = 2 * rng.below(numbers.len() / 2);
                    numbers[k + 1] = numbers[k];
                    parts.set(0, &numbers);
                }
            }
            9 => {
                if let Some(i) = at(rng, &parts, 2, activities) {
                    let old = parts.numbers(2)[i];
                    let new = rng.pick(&[0, 8, 9, old + 1, old.wrapping_sub(1), 1 << 31, u32::MAX]);
                    parts.change(2, i, new);
                }
            }
            10 => {
                // two counts changed so that their sum stays, exactly or modulo 2^32
                if let (Some(i), Some(j)) = (at(rng, &parts, 2, activities), at(rng, &parts, 2, activities)) {
                    let by = rng.pick(&[1, 2, 1 << 31]);
                    let up = parts.numbers(2)[i].wrapping_add(by);
                    parts.change(2, i, up);
                    let down = parts.numbers(2)[j].wrapping_sub(by);
                    parts.change(2, j, down);
                }
            }
            11 | 12 => {
                if let Some(i) = at(rng, &parts, 3, 2 * arcs) {
                    let new = rng.known_or(places, &[places as u32, 64, 1 << 8, u32::MAX]);
                    parts.change(3, i, new);
                }
            }
            13 => {
                // one arc written over another
                let mut numbers = parts.numbers(3);
                if numbers.len() >= 4 {
                    let (i, j) = (2 * rng.below(numbers.len() / 2), 2 * rng.below(numbers.len() / 2));
                    numbers[j] = numbers[i];
                    numbers[j + 1] = numbers[i + 1];
                    parts.set(3, &numbers);
                }
            }
            _ => {
                // nothing leads into one sink any more, or out of one source
                let kind = net.kinds[rng.below(kinds)];
                let mut numbers = parts.numbers(3);
                let sink = rng.percent(50);
                for arc in numbers.chunks_mut(2) {
                    if arc.len() == 2 && sink && arc[1] == kind.sink as u32 {
                        arc[1] = arc[0];
                    }
                    if arc.len() == 2 && !sink && arc[0] == kind.source as u32 {
                        arc[1] = arc[0];
                    }
                }
                parts.set(3, &numbers);
            }
        }
    }
    parts.file()
}

/// Damage to a sound checkpoint whose layout stays right: it reaches the refusals 43 to 47.
pub fn damage_checkpoint(rng: &mut Rng, replay: &Replay) -> Vec<u8> {
    let net = &replay.net;
    let (places, activities, objects) = (net.places.len(), net.activities.len(), replay.objects.len());
    let mut parts = Parts::of(&replay.save(), 5);
    for _ in 0..rng.pick(&[1, 1, 1, 1, 2, 3]) {
        let there = |parts: &Parts, body: usize| parts.bodies[body].len() / 4;
        match rng.below(25) {
            24 if there(&parts, 3) == 3 + 2 * activities => {
                // one more event, in both counts: sound where there is room for it
                let numbers = parts.numbers(3);
                let at = 3 + 2 * rng.below(activities);
                parts.change(3, 1, numbers[1].wrapping_add(1));
                parts.change(3, at, numbers[at].wrapping_add(1));
            }
            0 | 1 => parts.bodies[0] = damage_table(rng, net),
            2 => {
                let mut table = parts.bodies[0].clone();
                damage_bytes(rng, &mut table, 4);
                parts.bodies[0] = table;
            }
            3 => parts.resize(rng, 1, 4),
            4 if there(&parts, 1) > 0 => {
                let new = rng.known_or(net.kinds.len(), &[net.kinds.len() as u32, 8, 256, u32::MAX]);
                let at = rng.below(there(&parts, 1));
                parts.change(1, at, new);
            }
            5 => parts.bodies[1].resize(rng.pick(&[0, 1, 2, 3, 4, 4096, 4097, 4100]), 0),
            6 => parts.resize(rng, 2, 4),
            7 | 8 if there(&parts, 2) > 0 => {
                let new = rng.known_or(places, &[places as u32, 64, 256, u32::MAX]);
                let at = rng.below(there(&parts, 2));
                parts.change(2, at, new);
            }
            9 => parts.resize(rng, 3, 8),
            10 if there(&parts, 3) > 0 => {
                let new = rng.pick(&[0, 1, 2, 256, 257, 1 << 16, u32::MAX]);
                parts.change(3, 0, new);
            }
            11 if there(&parts, 3) > 1 => {
                let new = rng.pick(&[
                    0,
                    replay.events as u32 + 1,
                    (replay.events as u32).wrapping_sub(1),
                    1_000_000,
                    1_000_001,
                    u32::MAX,
                ]);
                parts.change(3, 1, new);
            }
            12 if there(&parts, 3) > 2 => {
                let new = rng.pick(&[0, 1, objects as u32, objects as u32 + 1, replay.closing_jumps as u32 + 1, u32::MAX]);
                parts.change(3, 2, new);
            }
            13 | 14 if there(&parts, 3) == 3 + 2 * activities => {
                // FIRED or JUMPS of one activity, or of two with the same sum modulo 2^32
                let numbers = parts.numbers(3);
                let column = 3 + rng.below(2);
                let i = column + 2 * rng.below(activities);
                let by = rng.pick(&[1, 1, 8, 1 << 16, 1 << 31, u32::MAX]);
                parts.change(3, i, numbers[i].wrapping_add(by));
                if rng.percent(60) {
                    let numbers = parts.numbers(3);
                    let j = column + 2 * rng.below(activities);
                    parts.change(3, j, numbers[j].wrapping_sub(by));
                }
            }
            15 if there(&parts, 3) == 3 + 2 * activities => {
                // JUMPS at MOVED or one above
                let a = rng.below(activities);
                parts.change(3, 4 + 2 * a, (replay.moved(a) + rng.below(2) as u64) as u32);
            }
            16 => parts.resize(rng, 4, 4),
            17 if there(&parts, 4) == places * places => {
                let at = rng.below(places) * (places + 1);
                parts.change(4, at, rng.pick(&[1, 1 << 31, u32::MAX]));
            }
            18 | 19 if there(&parts, 4) == places * places => {
                let at = rng.below(places * places);
                let old = parts.numbers(4)[at];
                let new = other_number(rng, old);
                parts.change(4, at, new);
            }
            20..=22 if there(&parts, 4) == places * places => {
                // from one pair to another of the same kind, the sum staying exactly or modulo 2^32
                let numbers = parts.numbers(4);
                let above: Vec<usize> = (0..places * places).filter(|&i| numbers[i] > 0).collect();
                let from = if above.is_empty() { rng.below(places * places) } else { rng.pick(&above) };
                let kind = net.places[from / places];
                let same: Vec<usize> = (0..places * places)
                    .filter(|&i| i / places != i % places && net.places[i / places] == kind && net.places[i % places] == kind)
                    .collect();
                let to = rng.pick(&same);
                let by = rng.pick(&[1, numbers[from], 1 << 31]);
                parts.change(4, from, numbers[from].wrapping_sub(by));
                let numbers = parts.numbers(4);
                parts.change(4, to, numbers[to].wrapping_add(by));
            }
            _ if there(&parts, 4) == places * places && there(&parts, 3) == 3 + 2 * activities => {
                // one more jump, in an activity's count and in a pair: sound where there is room for it
                let mut counts = parts.numbers(3);
                let a = rng.below(activities);
                counts[4 + 2 * a] = counts[4 + 2 * a].wrapping_add(1);
                parts.set(3, &counts);
                let mut pairs = parts.numbers(4);
                let at = rng.below(places * places);
                pairs[at] = pairs[at].wrapping_add(1);
                parts.set(4, &pairs);
            }
            _ => {}
        }
    }
    parts.file()
}
