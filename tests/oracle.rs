//! The rules of document 01, with the change requests of document 02 that have landed, written a second time, plainly and from the
//! papers alone, to compare the library with. Nothing here is tuned. Refusals are the papers' numbers.
//!
//! Two forms of the replay: `Replay` keeps the counts that a checkpoint stores, and can go on from any checkpoint;
//! `PlainRun` keeps the accepted events alone and counts by replaying them all (Algorithm 1 of document 001).

pub const MAX_TABLE: usize = 4704;
pub const MAX_CHECKPOINT: usize = 29844;
pub const MAX_OBJECTS: usize = 1024;
pub const MAX_EVENTS: u64 = 1_000_000;

// ---------------------------------------------------------------- numbers in files

/// The number at a byte position, least significant byte first.
pub fn word(bytes: &[u8], at: usize) -> u32 {
    u32::from_le_bytes([bytes[at], bytes[at + 1], bytes[at + 2], bytes[at + 3]])
}

/// The numbers of a body, whose length is a multiple of 4.
pub fn words(bytes: &[u8]) -> Vec<u32> {
    assert!(bytes.len() % 4 == 0);
    (0..bytes.len() / 4).map(|i| word(bytes, 4 * i)).collect()
}

pub fn bytes_of(words: &[u32]) -> Vec<u8> {
    words.iter().flat_map(|w| w.to_le_bytes()).collect()
}

/// A file: contents, then the bodies in order without gaps.
pub fn file_of(bodies: &[Vec<u8>]) -> Vec<u8> {
    let mut contents = Vec::new();
    let mut start = 8 * bodies.len();
    for body in bodies {
        contents.push(start as u32);
        contents.push(body.len() as u32);
        start += body.len();
    }
    let mut file = bytes_of(&contents);
    for body in bodies {
        file.extend_from_slice(body);
    }
    file
}

/// The bodies of a file with `n` pairs in its contents, or `None` where a start or the end breaks the layout.
fn bodies_of(file: &[u8], n: usize) -> Option<Vec<&[u8]>> {
    let mut bodies = Vec::new();
    let mut at = 8 * n as u64;
    for i in 0..n {
        let start = word(file, 8 * i) as u64;
        let length = word(file, 8 * i + 4) as u64;
        if start != at || at + length > file.len() as u64 {
            return None;
        }
        bodies.push(&file[at as usize..(at + length) as usize]);
        at += length;
    }
    if at == file.len() as u64 {
        Some(bodies)
    } else {
        None
    }
}

// ---------------------------------------------------------------- the net (route table)

#[derive(Clone, Copy, PartialEq, Eq, Debug)]
pub struct Kind {
    pub source: usize,
    pub sink: usize,
}

#[derive(Clone, Copy, PartialEq, Eq, Debug)]
pub struct Arc {
    pub input: usize,
    pub output: usize,
}

#[derive(Clone, PartialEq, Eq, Debug)]
pub struct Net {
    pub kinds: Vec<Kind>,
    /// the kind of each place
    pub places: Vec<usize>,
    /// the arcs of each activity
    pub activities: Vec<Vec<Arc>>,
}

impl Net {
    /// Loads a route table file: the net, or the first of 1 to 9 that applies.
    pub fn load(table: &[u8]) -> Result<Net, u32> {
        if table.len() < 32 || table.len() > MAX_TABLE {
            return Err(1);
        }
        let bodies = bodies_of(table, 4).ok_or(2u32)?;
        for (body, row) in bodies.iter().zip([8, 4, 4, 8]) {
            if body.len() % row != 0 {
                return Err(2);
            }
        }
        let ends = words(bodies[0]);
        let places = words(bodies[1]);
        let arc_counts = words(bodies[2]);
        let arc_ends = words(bodies[3]);
        let kind_count = ends.len() / 2;
        let place_count = places.len();
        let activity_count = arc_counts.len();
        if !(1..=8).contains(&kind_count) || !(2..=64).contains(&place_count) || !(1..=64).contains(&activity_count) {
            return Err(3);
        }
        if places.iter().any(|&k| k as usize >= kind_count) {
            return Err(4);
        }
        let is_place_of = |p: u32, k: usize| (p as usize) < place_count && places[p as usize] as usize == k;
        for k in 0..kind_count {
            let (source, sink) = (ends[2 * k], ends[2 * k + 1]);
            if !is_place_of(source, k) || !is_place_of(sink, k) || source == sink {
                return Err(5);
            }
        }
        let sum: u64 = arc_counts.iter().map(|&n| n as u64).sum();
        if arc_counts.iter().any(|&n| n == 0 || n > 8) || sum != arc_ends.len() as u64 / 2 {
            return Err(6);
        }
        for arc in arc_ends.chunks(2) {
            let known = (arc[0] as usize) < place_count && (arc[1] as usize) < place_count;
            if !known || places[arc[0] as usize] != places[arc[1] as usize] {
                return Err(7);
            }
        }
        let mut rest = arc_ends.chunks(2).map(|arc| Arc { input: arc[0] as usize, output: arc[1] as usize });
        let net = Net {
            kinds: ends.chunks(2).map(|e| Kind { source: e[0] as usize, sink: e[1] as usize }).collect(),
            places: places.iter().map(|&k| k as usize).collect(),
            activities: arc_counts.iter().map(|&n| rest.by_ref().take(n as usize).collect()).collect(),
        };
        for arcs in &net.activities {
            for i in 0..arcs.len() {
                for j in 0..i {
                    if net.places[arcs[i].input] == net.places[arcs[j].input] {
                        return Err(8);
                    }
                }
            }
        }
        if net.kinds.iter().any(|kind| !net.reaches(kind.source, kind.sink)) {
            return Err(9);
        }
        Ok(net)
    }

    /// Whether a path over arcs leads from one place to another.
    fn reaches(&self, from: usize, to: usize) -> bool {
        let mut reached = vec![from];
        let mut next = 0;
        while next < reached.len() {
            let here = reached[next];
            next += 1;
            for arc in self.activities.iter().flatten() {
                if arc.input == here && !reached.contains(&arc.output) {
                    reached.push(arc.output);
                }
            }
        }
        reached.contains(&to)
    }

    /// The arc by which an activity takes objects of a kind.
    pub fn arc(&self, activity: usize, kind: usize) -> Option<Arc> {
        self.activities[activity].iter().copied().find(|arc| self.places[arc.input] == kind)
    }

    /// The route table file of this net.
    pub fn table(&self) -> Vec<u8> {
        let number = |n: usize| n as u32;
        let kinds: Vec<u32> = self.kinds.iter().flat_map(|k| [number(k.source), number(k.sink)]).collect();
        let places: Vec<u32> = self.places.iter().map(|&k| number(k)).collect();
        let counts: Vec<u32> = self.activities.iter().map(|arcs| number(arcs.len())).collect();
        let arcs: Vec<u32> = self.activities.iter().flatten().flat_map(|a| [number(a.input), number(a.output)]).collect();
        file_of(&[bytes_of(&kinds), bytes_of(&places), bytes_of(&counts), bytes_of(&arcs)])
    }

    /// 11 and 12 for the kinds of the objects (the register).
    pub fn refuse_objects(&self, kinds: &[u32]) -> Result<(), u32> {
        if kinds.is_empty() || kinds.len() > MAX_OBJECTS {
            return Err(11);
        }
        if kinds.iter().any(|&k| k as usize >= self.kinds.len()) {
            return Err(12);
        }
        Ok(())
    }

    /// 23 and 24 for an event.
    pub fn refuse_activity(&self, activity: u32, object_count: u64) -> Result<(), u32> {
        if activity as usize >= self.activities.len() {
            return Err(23);
        }
        if object_count != self.activities[activity as usize].len() as u64 {
            return Err(24);
        }
        Ok(())
    }

    /// 25, 26 and 27 for an event of a known activity; `kinds` are those of the trace's objects.
    pub fn refuse_event_objects(&self, kinds: &[usize], activity: usize, objects: &[u32]) -> Result<(), u32> {
        if objects.iter().any(|&o| o as usize >= kinds.len()) {
            return Err(25);
        }
        let taken: Vec<usize> = objects.iter().map(|&o| kinds[o as usize]).collect();
        if taken.iter().any(|&k| self.arc(activity, k).is_none()) {
            return Err(26);
        }
        for i in 0..taken.len() {
            if taken[..i].contains(&taken[i]) {
                return Err(27);
            }
        }
        Ok(())
    }
}

// ---------------------------------------------------------------- the replay, with the counts that a checkpoint stores

#[derive(Clone, PartialEq, Eq, Debug)]
pub struct Replay {
    /// the route table file as it was given
    pub table: Vec<u8>,
    pub net: Net,
    /// the kind of each object (the register)
    pub objects: Vec<usize>,
    /// the place of each object
    pub places: Vec<usize>,
    pub closed: bool,
    pub events: u64,
    pub closing_jumps: u64,
    /// FIRED and JUMPS of each activity
    pub fired: Vec<u64>,
    pub jumps: Vec<u64>,
    /// jumps from the first place to the second
    pub pairs: Vec<Vec<u64>>,
}

impl Replay {
    /// Starts a replay: 1 to 9 for the table, then 11 and 12.
    pub fn start(table: &[u8], kinds: &[u32]) -> Result<Replay, u32> {
        let net = Net::load(table)?;
        net.refuse_objects(kinds)?;
        let objects: Vec<usize> = kinds.iter().map(|&k| k as usize).collect();
        Ok(Replay {
            table: table.to_vec(),
            places: objects.iter().map(|&k| net.kinds[k].source).collect(),
            objects,
            closed: false,
            events: 0,
            closing_jumps: 0,
            fired: vec![0; net.activities.len()],
            jumps: vec![0; net.activities.len()],
            pairs: vec![vec![0; net.places.len()]; net.places.len()],
            net,
        })
    }

    /// An event: taken, or the first of 21 to 27.
    pub fn event(&mut self, activity: u32, objects: &[u32]) -> Result<(), u32> {
        if self.closed {
            return Err(21);
        }
        if self.events >= MAX_EVENTS {
            return Err(22);
        }
        self.net.refuse_activity(activity, objects.len() as u64)?;
        let activity = activity as usize;
        self.net.refuse_event_objects(&self.objects, activity, objects)?;
        for &object in objects {
            let object = object as usize;
            let arc = self.net.arc(activity, self.objects[object]).unwrap();
            if self.places[object] != arc.input {
                self.pairs[self.places[object]][arc.input] += 1;
                self.jumps[activity] += 1;
            }
            self.places[object] = arc.output;
        }
        self.events += 1;
        self.fired[activity] += 1;
        Ok(())
    }

    /// Closing: taken, or 31.
    pub fn close(&mut self) -> Result<(), u32> {
        if self.closed {
            return Err(31);
        }
        for object in 0..self.objects.len() {
            let sink = self.net.kinds[self.objects[object]].sink;
            if self.places[object] != sink {
                self.pairs[self.places[object]][sink] += 1;
                self.closing_jumps += 1;
            }
            self.places[object] = sink;
        }
        self.closed = true;
        Ok(())
    }

    // counts

    pub fn moved(&self, activity: usize) -> u64 {
        self.fired[activity] * self.net.activities[activity].len() as u64
    }

    pub fn total_jumps(&self) -> u64 {
        self.jumps.iter().sum::<u64>() + self.closing_jumps
    }

    pub fn transfers(&self) -> u64 {
        let moved: u64 = (0..self.fired.len()).map(|a| self.moved(a)).sum();
        moved + if self.closed { self.objects.len() as u64 } else { 0 }
    }

    /// TAKEN of a place
    pub fn consumed(&self, place: usize) -> u64 {
        let mut count = 0;
        for (activity, arcs) in self.net.activities.iter().enumerate() {
            count += self.fired[activity] * arcs.iter().filter(|arc| arc.input == place).count() as u64;
        }
        if self.closed {
            count += self.objects.iter().filter(|&&k| self.net.kinds[k].sink == place).count() as u64;
        }
        count
    }

    /// IN of a place
    pub fn jumps_in(&self, place: usize) -> u64 {
        self.pairs.iter().map(|row| row[place]).sum()
    }

    /// OUT of a place
    pub fn jumps_out(&self, place: usize) -> u64 {
        self.pairs[place].iter().sum()
    }

    // the checkpoint (desk record)

    pub fn save(&self) -> Vec<u8> {
        let objects: Vec<u32> = self.objects.iter().map(|&k| k as u32).collect();
        let places: Vec<u32> = self.places.iter().map(|&p| p as u32).collect();
        let mut counts = vec![self.closed as u32, self.events as u32, self.closing_jumps as u32];
        for activity in 0..self.fired.len() {
            counts.push(self.fired[activity] as u32);
            counts.push(self.jumps[activity] as u32);
        }
        let pairs: Vec<u32> = self.pairs.iter().flatten().map(|&n| n as u32).collect();
        file_of(&[self.table.clone(), bytes_of(&objects), bytes_of(&places), bytes_of(&counts), bytes_of(&pairs)])
    }

    /// Restores a checkpoint: the replay, or the first of 41 to 47 with its second number (0 but for 43 and 44).
    pub fn restore(record: &[u8]) -> Result<Replay, (u32, u32)> {
        if record.len() < 40 || record.len() > MAX_CHECKPOINT {
            return Err((41, 0));
        }
        let bodies = bodies_of(record, 5).ok_or((42, 0))?;
        let net = Net::load(bodies[0]).map_err(|code| (43, code))?;
        if bodies[1].len() % 4 != 0 {
            return Err((44, 0));
        }
        let kinds = words(bodies[1]);
        net.refuse_objects(&kinds).map_err(|code| (44, code))?;

        if bodies[2].len() != bodies[1].len() {
            return Err((45, 0));
        }
        let places = words(bodies[2]);
        let begins_closed = bodies[3].len() >= 4 && word(bodies[3], 0) == 1;
        for (&place, &kind) in places.iter().zip(&kinds) {
            if place as usize >= net.places.len() || net.places[place as usize] != kind as usize {
                return Err((45, 0));
            }
            if begins_closed && place as usize != net.kinds[kind as usize].sink {
                return Err((45, 0));
            }
        }

        let activity_count = net.activities.len();
        if bodies[3].len() != 12 + 8 * activity_count {
            return Err((46, 0));
        }
        let counts: Vec<u64> = words(bodies[3]).iter().map(|&w| w as u64).collect();
        let (closed, events, closing_jumps) = (counts[0], counts[1], counts[2]);
        let fired: Vec<u64> = (0..activity_count).map(|a| counts[3 + 2 * a]).collect();
        let jumps: Vec<u64> = (0..activity_count).map(|a| counts[4 + 2 * a]).collect();
        if closed > 1 || events > MAX_EVENTS || fired.iter().sum::<u64>() != events {
            return Err((46, 0));
        }
        let too_many = |a: usize| jumps[a] > fired[a] * net.activities[a].len() as u64;
        if (0..activity_count).any(too_many) {
            return Err((46, 0));
        }
        if closing_jumps > kinds.len() as u64 || (closed == 0 && closing_jumps != 0) {
            return Err((46, 0));
        }

        let place_count = net.places.len();
        if bodies[4].len() != 4 * place_count * place_count {
            return Err((47, 0));
        }
        let flat: Vec<u64> = words(bodies[4]).iter().map(|&w| w as u64).collect();
        let replay = Replay {
            table: bodies[0].to_vec(),
            objects: kinds.iter().map(|&k| k as usize).collect(),
            places: places.iter().map(|&p| p as usize).collect(),
            closed: closed == 1,
            events,
            closing_jumps,
            fired,
            jumps,
            pairs: flat.chunks(place_count).map(|row| row.to_vec()).collect(),
            net,
        };
        for from in 0..place_count {
            for to in 0..place_count {
                let possible = from != to && replay.net.places[from] == replay.net.places[to];
                if !possible && replay.pairs[from][to] > 0 {
                    return Err((47, 0));
                }
            }
        }
        if flat.iter().sum::<u64>() != replay.total_jumps() {
            return Err((47, 0));
        }
        if (0..place_count).any(|p| replay.jumps_in(p) > replay.consumed(p)) {
            return Err((47, 0));
        }
        Ok(replay)
    }

    // the report (sheet)

    pub fn trail_counts(&self) -> Vec<u64> {
        vec![self.objects.len() as u64, self.events, self.total_jumps(), self.transfers()]
    }

    pub fn place_counts(&self, place: u32) -> Result<Vec<u64>, u32> {
        let p = place as usize;
        if p >= self.net.places.len() {
            return Err(51);
        }
        Ok(vec![place as u64, self.consumed(p), self.jumps_in(p), self.jumps_out(p)])
    }

    pub fn act_counts(&self, activity: u32) -> Result<Vec<u64>, u32> {
        let a = activity as usize;
        if a >= self.net.activities.len() {
            return Err(52);
        }
        Ok(vec![activity as u64, self.fired[a], self.moved(a), self.jumps[a]])
    }

    pub fn jump_counts(&self, from: u32, to: u32) -> Result<Vec<u64>, u32> {
        let count = self.net.places.len();
        if from as usize >= count || to as usize >= count {
            return Err(51);
        }
        Ok(vec![from as u64, to as u64, self.pairs[from as usize][to as usize]])
    }

    pub fn trail_line(&self) -> String {
        let c = self.trail_counts();
        format!("trail {} {} {} {} {}\n", c[0], c[1], c[2], c[3], fitness(c[2], c[3]))
    }

    pub fn place_line(&self, place: u32) -> Result<String, u32> {
        let c = self.place_counts(place)?;
        Ok(format!("place {} {} {} {} {}\n", c[0], c[1], c[2], c[3], fitness(c[2], c[1])))
    }

    pub fn act_line(&self, activity: u32) -> Result<String, u32> {
        let c = self.act_counts(activity)?;
        Ok(format!("act {} {} {} {} {}\n", c[0], c[1], c[2], c[3], fitness(c[3], c[2])))
    }

    /// Empty for a pair with no jumps.
    pub fn jump_line(&self, from: u32, to: u32) -> Result<String, u32> {
        let c = self.jump_counts(from, to)?;
        Ok(if c[2] == 0 { String::new() } else { format!("jump {} {} {}\n", c[0], c[1], c[2]) })
    }

    /// The whole report, `jump` lines row by row.
    pub fn report(&self) -> String {
        let places = self.net.places.len() as u32;
        let mut text = self.trail_line();
        for place in 0..places {
            text += &self.place_line(place).unwrap();
        }
        for activity in 0..self.net.activities.len() as u32 {
            text += &self.act_line(activity).unwrap();
        }
        for from in 0..places {
            for to in 0..places {
                text += &self.jump_line(from, to).unwrap();
            }
        }
        text
    }
}

/// FIT: 1 − jumps/transfers rounded to the nearest thousandth, halves upward, but with one jump or more never above 0.999 (A.7).
pub fn fitness(jumps: u64, transfers: u64) -> String {
    if transfers == 0 {
        return "-".to_string();
    }
    let (whole, rest) = (1000 * (transfers - jumps) / transfers, 1000 * (transfers - jumps) % transfers);
    let nearest = if rest < transfers - rest { whole } else { whole + 1 };
    let thousandths = if jumps > 0 && nearest > 999 { 999 } else { nearest };
    format!("{}.{:03}", thousandths / 1000, thousandths % 1000)
}

// ---------------------------------------------------------------- the plain run of demand 3

/// Table, objects and the events and close that were accepted; nothing is counted before it is asked for.
#[derive(Clone, Debug)]
pub struct PlainRun {
    pub table: Vec<u8>,
    pub net: Net,
    pub objects: Vec<usize>,
    pub accepted: Vec<(usize, Vec<usize>)>,
    pub closed: bool,
}

/// One object leaving a place: by a jump, or taken by an activity (`None`: at the close).
struct Replayed {
    places: Vec<usize>,
    /// (from, to, activity)
    jumps: Vec<(usize, usize, Option<usize>)>,
    /// (input place, activity)
    transfers: Vec<(usize, Option<usize>)>,
}

impl PlainRun {
    pub fn start(table: &[u8], kinds: &[u32]) -> Result<PlainRun, u32> {
        let net = Net::load(table)?;
        net.refuse_objects(kinds)?;
        let objects = kinds.iter().map(|&k| k as usize).collect();
        Ok(PlainRun { table: table.to_vec(), net, objects, accepted: Vec::new(), closed: false })
    }

    pub fn event(&mut self, activity: u32, objects: &[u32]) -> Result<(), u32> {
        if self.closed {
            return Err(21);
        }
        if self.accepted.len() as u64 >= MAX_EVENTS {
            return Err(22);
        }
        self.net.refuse_activity(activity, objects.len() as u64)?;
        self.net.refuse_event_objects(&self.objects, activity as usize, objects)?;
        self.accepted.push((activity as usize, objects.iter().map(|&o| o as usize).collect()));
        Ok(())
    }

    pub fn close(&mut self) -> Result<(), u32> {
        if self.closed {
            return Err(31);
        }
        self.closed = true;
        Ok(())
    }

    /// Algorithm 1 of document 001 over everything that was accepted.
    fn replayed(&self) -> Replayed {
        let mut places: Vec<usize> = self.objects.iter().map(|&k| self.net.kinds[k].source).collect();
        let mut jumps = Vec::new();
        let mut transfers = Vec::new();
        for (activity, objects) in &self.accepted {
            for &object in objects {
                let arc = self.net.arc(*activity, self.objects[object]).unwrap();
                if places[object] != arc.input {
                    jumps.push((places[object], arc.input, Some(*activity)));
                    places[object] = arc.input;
                }
            }
            for &object in objects {
                let arc = self.net.arc(*activity, self.objects[object]).unwrap();
                transfers.push((places[object], Some(*activity)));
                places[object] = arc.output;
            }
        }
        if self.closed {
            for (object, place) in places.iter_mut().enumerate() {
                let sink = self.net.kinds[self.objects[object]].sink;
                if *place != sink {
                    jumps.push((*place, sink, None));
                    *place = sink;
                }
            }
            transfers.extend(places.iter().map(|&place| (place, None)));
        }
        Replayed { places, jumps, transfers }
    }

    /// The same run as a `Replay`, every stored count counted in the replayed jumps and events.
    pub fn replay(&self) -> Replay {
        let run = self.replayed();
        let place_count = self.net.places.len();
        let activity_count = self.net.activities.len();
        let mut pairs = vec![vec![0; place_count]; place_count];
        for &(from, to, _) in &run.jumps {
            pairs[from][to] += 1;
        }
        let count = |a: usize| run.jumps.iter().filter(|j| j.2 == Some(a)).count() as u64;
        Replay {
            table: self.table.clone(),
            net: self.net.clone(),
            objects: self.objects.clone(),
            places: run.places,
            closed: self.closed,
            events: self.accepted.len() as u64,
            closing_jumps: run.jumps.iter().filter(|j| j.2.is_none()).count() as u64,
            fired: (0..activity_count).map(|a| self.accepted.iter().filter(|e| e.0 == a).count() as u64).collect(),
            jumps: (0..activity_count).map(count).collect(),
            pairs,
        }
    }

    /// Whether the counts that `Replay` derives are those counted in the replayed jumps and transfers.
    pub fn agrees_with(&self, replay: &Replay) -> bool {
        let run = self.replayed();
        let places_agree = (0..self.net.places.len()).all(|p| {
            replay.consumed(p) == run.transfers.iter().filter(|t| t.0 == p).count() as u64
                && replay.jumps_in(p) == run.jumps.iter().filter(|j| j.1 == p).count() as u64
                && replay.jumps_out(p) == run.jumps.iter().filter(|j| j.0 == p).count() as u64
        });
        let activities_agree = (0..self.net.activities.len())
            .all(|a| replay.moved(a) == run.transfers.iter().filter(|t| t.1 == Some(a)).count() as u64);
        *replay == self.replay()
            && places_agree
            && activities_agree
            && replay.total_jumps() == run.jumps.len() as u64
            && replay.transfers() == run.transfers.len() as u64
    }

    /// Whether the accepted events are a permitted run: moves alone, from the sources, and all on their sinks at the end.
    pub fn permitted(&self) -> bool {
        let mut places: Vec<usize> = self.objects.iter().map(|&k| self.net.kinds[k].source).collect();
        for (activity, objects) in &self.accepted {
            for &object in objects {
                let arc = self.net.arc(*activity, self.objects[object]).unwrap();
                if places[object] != arc.input {
                    return false;
                }
                places[object] = arc.output;
            }
        }
        (0..places.len()).all(|o| places[o] == self.net.kinds[self.objects[o]].sink)
    }
}

// ---------------------------------------------------------------- the trail file and the program

/// A trail file whose contents and register were accepted.
pub struct TraceFile<'a> {
    file: &'a [u8],
    /// where the events body starts, and its claimed length
    start: usize,
    length: u64,
    /// the register
    pub kinds: Vec<u32>,
}

pub enum Read {
    Event { activity: u32, objects: Vec<u32>, next: u64 },
    End,
}

/// 71, then 11 and 12.
pub fn open_trace<'a>(net: &Net, file: &'a [u8]) -> Result<TraceFile<'a>, u32> {
    if file.len() < 16 {
        return Err(71);
    }
    let pair = |i: usize| (word(file, 8 * i) as u64, word(file, 8 * i + 4) as u64);
    let (register, events) = (pair(0), pair(1));
    if register.0 != 16 || 16 + register.1 > file.len() as u64 || events.0 != 16 + register.1 || register.1 % 4 != 0 {
        return Err(71);
    }
    let start = events.0 as usize;
    let kinds = words(&file[16..start]);
    net.refuse_objects(&kinds)?;
    Ok(TraceFile { file, start, length: events.1, kinds })
}

impl TraceFile<'_> {
    /// The event at a position of the events body, where `accepted` events came before it: 73, 22 to 27.
    pub fn read_at(&self, net: &Net, at: u64, accepted: u64) -> Result<Read, u32> {
        let present = (self.file.len() - self.start) as u64;
        if at == self.length {
            return if present > self.length { Err(73) } else { Ok(Read::End) };
        }
        let inside = |end: u64| end <= self.length && end <= present;
        if at > self.length || !inside(at + 8) {
            return Err(73);
        }
        if accepted >= MAX_EVENTS {
            return Err(22);
        }
        let here = self.start + at as usize;
        let activity = word(self.file, here);
        let count = word(self.file, here + 4) as u64;
        net.refuse_activity(activity, count)?;
        let next = at + 8 + 4 * count;
        if !inside(next) {
            return Err(73);
        }
        let objects = words(&self.file[here + 8..self.start + next as usize]);
        let kinds: Vec<usize> = self.kinds.iter().map(|&k| k as usize).collect();
        net.refuse_event_objects(&kinds, activity as usize, &objects)?;
        Ok(Read::Event { activity, objects, next })
    }
}

/// What the program prints, given the bytes of `route.tab` (none: empty) and of standard input.
pub fn program(table: &[u8], trace: &[u8]) -> String {
    match replay_file(table, trace) {
        Ok(replay) => replay.report(),
        Err((code, accepted)) => format!("refused {code} {accepted}\n"),
    }
}

/// A whole trail file replayed and closed, or the refusal and the events accepted before it.
pub fn replay_file(table: &[u8], trace: &[u8]) -> Result<Replay, (u32, u64)> {
    let net = Net::load(table).map_err(|code| (code, 0))?;
    let file = open_trace(&net, trace).map_err(|code| (code, 0))?;
    let mut replay = Replay::start(table, &file.kinds).map_err(|code| (code, 0))?;
    let mut at = 0;
    loop {
        match file.read_at(&net, at, replay.events).map_err(|code| (code, replay.events))? {
            Read::End => break,
            Read::Event { activity, objects, next } => {
                replay.event(activity, &objects).map_err(|code| (code, replay.events))?;
                at = next;
            }
        }
    }
    replay.close().map_err(|code| (code, replay.events))?;
    Ok(replay)
}

/// A trail file of these objects and events.
pub fn trace_file(kinds: &[u32], events: &[(u32, Vec<u32>)]) -> Vec<u8> {
    let mut body = Vec::new();
    for (activity, objects) in events {
        body.push(*activity);
        body.push(objects.len() as u32);
        body.extend_from_slice(objects);
    }
    file_of(&[bytes_of(kinds), bytes_of(&body)])
}

// ---------------------------------------------------------------- the calls of the C client, over bytes

/// Each call answers one number: the refusal's number below 2^32 (0: taken), above it the second number of 43 and 44,
/// or how many bytes were written. A refused call changes no byte.
pub mod client {
    use super::{bytes_of, words, Net, Replay};

    type Refusal = (u32, u32);

    fn answer(result: Result<usize, Refusal>) -> u64 {
        match result {
            Ok(written) => (written as u64) << 32,
            Err((code, second)) => code as u64 | (second as u64) << 32,
        }
    }

    fn plain(code: u32) -> Refusal {
        (code, 0)
    }

    fn write(lent: &mut [u8], bytes: &[u8]) -> Result<usize, Refusal> {
        if lent.len() < bytes.len() {
            return Err((61, 0));
        }
        lent[..bytes.len()].copy_from_slice(bytes);
        Ok(bytes.len())
    }

    pub fn load(table: &[u8]) -> u64 {
        answer(Net::load(table).map(|_| 0).map_err(plain))
    }

    pub fn start(table: &[u8], objects: &[u8], trail: &mut [u8]) -> u64 {
        answer((|| {
            Net::load(table).map_err(plain)?;
            if objects.len() % 4 != 0 {
                return Err((11, 0));
            }
            let replay = Replay::start(table, &words(objects)).map_err(plain)?;
            write(trail, &replay.save())
        })())
    }

    pub fn event(trail: &mut [u8], activity: u32, objects: &[u8]) -> u64 {
        answer((|| {
            let mut replay = Replay::restore(trail)?;
            // a list that has no whole rows has the number of objects of no activity
            let rows = if objects.len() % 4 == 0 { words(objects) } else { vec![0; 9] };
            replay.event(activity, &rows).map_err(plain)?;
            write(trail, &replay.save())?;
            Ok(0)
        })())
    }

    pub fn close(trail: &mut [u8]) -> u64 {
        answer((|| {
            let mut replay = Replay::restore(trail)?;
            replay.close().map_err(plain)?;
            write(trail, &replay.save())?;
            Ok(0)
        })())
    }

    pub fn restore(record: &[u8], trail: &mut [u8]) -> u64 {
        answer(Replay::restore(record).and_then(|replay| write(trail, &replay.save())))
    }

    pub fn save(trail: &[u8], record: &mut [u8]) -> u64 {
        answer(Replay::restore(trail).and_then(|replay| write(record, &replay.save())))
    }

    pub fn trail_line(trail: &[u8], line: &mut [u8]) -> u64 {
        answer(Replay::restore(trail).and_then(|replay| write(line, replay.trail_line().as_bytes())))
    }

    pub fn place_line(trail: &[u8], place: u32, line: &mut [u8]) -> u64 {
        answer(Replay::restore(trail).and_then(|replay| write(line, replay.place_line(place).map_err(plain)?.as_bytes())))
    }

    pub fn act_line(trail: &[u8], activity: u32, line: &mut [u8]) -> u64 {
        answer(Replay::restore(trail).and_then(|replay| write(line, replay.act_line(activity).map_err(plain)?.as_bytes())))
    }

    pub fn jump_line(trail: &[u8], from: u32, to: u32, line: &mut [u8]) -> u64 {
        answer(Replay::restore(trail).and_then(|replay| write(line, replay.jump_line(from, to).map_err(plain)?.as_bytes())))
    }

    /// The whole numbers of a line, as words.
    fn write_counts(lent: &mut [u8], counts: &[u64]) -> Result<usize, Refusal> {
        let counts: Vec<u32> = counts.iter().map(|&n| n as u32).collect();
        write(lent, &bytes_of(&counts))
    }

    pub fn trail_counts(trail: &[u8], counts: &mut [u8]) -> u64 {
        answer(Replay::restore(trail).and_then(|replay| write_counts(counts, &replay.trail_counts())))
    }

    pub fn place_counts(trail: &[u8], place: u32, counts: &mut [u8]) -> u64 {
        answer(Replay::restore(trail).and_then(|replay| write_counts(counts, &replay.place_counts(place).map_err(plain)?)))
    }

    pub fn act_counts(trail: &[u8], activity: u32, counts: &mut [u8]) -> u64 {
        answer(Replay::restore(trail).and_then(|replay| write_counts(counts, &replay.act_counts(activity).map_err(plain)?)))
    }

    pub fn jump_count(trail: &[u8], from: u32, to: u32, counts: &mut [u8]) -> u64 {
        answer(Replay::restore(trail).and_then(|replay| write_counts(counts, &replay.jump_counts(from, to).map_err(plain)?)))
    }
}

// ---------------------------------------------------------------- the trails counted by hand

/// Table M: kind 0 script, kind 1 sheet.
pub fn table_m() -> Vec<u8> {
    file_of(&[
        bytes_of(&[0, 2, 3, 5]),
        bytes_of(&[0, 0, 0, 1, 1, 1]),
        bytes_of(&[1, 1, 2, 1]),
        bytes_of(&[0, 1, 3, 4, 1, 1, 4, 5, 1, 2]),
    ])
}

/// A script and two sheets.
pub const REGISTER_M: [u32; 3] = [0, 1, 1];

pub const REPORT_T4: &str = "trail 3 5 1 10 0.900
place 0 1 0 0 1.000
place 1 3 0 0 1.000
place 2 1 0 0 1.000
place 3 1 0 1 1.000
place 4 2 1 0 0.500
place 5 2 0 0 1.000
act 0 1 1 0 1.000
act 1 1 1 0 1.000
act 2 2 4 1 0.750
act 3 1 1 0 1.000
jump 3 4 1
";

#[cfg(test)]
mod tests {
    use super::*;

    const T3: &[(u32, &[u32])] = &[(0, &[0]), (1, &[1]), (2, &[0, 1]), (1, &[2]), (2, &[0, 2]), (3, &[0])];
    const T4: &[(u32, &[u32])] = &[(0, &[0]), (1, &[1]), (2, &[0, 1]), (2, &[0, 2]), (3, &[0])];

    fn run(events: &[(u32, &[u32])]) -> Replay {
        let mut replay = Replay::start(&table_m(), &REGISTER_M).unwrap();
        let mut plain = PlainRun::start(&table_m(), &REGISTER_M).unwrap();
        for (activity, objects) in events {
            replay.event(*activity, objects).unwrap();
            plain.event(*activity, objects).unwrap();
        }
        assert!(plain.agrees_with(&replay));
        replay
    }

    fn closed(events: &[(u32, &[u32])]) -> Replay {
        let mut replay = run(events);
        replay.close().unwrap();
        replay
    }

    #[test]
    fn t1_table_m_loads() {
        assert_eq!(table_m().len(), 128);
        assert_eq!(words(&table_m()[..32]), [32, 16, 48, 24, 72, 16, 88, 40]);
        let net = Net::load(&table_m()).unwrap();
        assert_eq!(net.table(), table_m());
    }

    #[test]
    fn t2_cut_to_31() {
        assert_eq!(Net::load(&table_m()[..31]), Err(1));
    }

    #[test]
    fn t3_no_jump() {
        let replay = closed(T3);
        assert_eq!((replay.total_jumps(), replay.transfers()), (0, 11));
    }

    #[test]
    fn t4_one_jump() {
        let replay = closed(T4);
        assert_eq!((replay.total_jumps(), replay.transfers(), replay.pairs[3][4]), (1, 10, 1));
        assert_eq!(replay.report(), REPORT_T4);
        let events: Vec<(u32, Vec<u32>)> = T4.iter().map(|e| (e.0, e.1.to_vec())).collect();
        assert_eq!(program(&table_m(), &trace_file(&REGISTER_M, &events)), REPORT_T4);
    }

    #[test]
    fn t5_save_and_restore() {
        let saved = run(&T4[..3]).save();
        let mut replay = Replay::restore(&saved).unwrap();
        assert_eq!(replay.save(), saved);
        for (activity, objects) in &T4[3..] {
            replay.event(*activity, objects).unwrap();
        }
        replay.close().unwrap();
        assert_eq!(replay, closed(T4));
        assert_eq!(Replay::restore(&replay.save()), Ok(replay));
    }

    #[test]
    fn t6_no_events() {
        let mut replay = Replay::start(&table_m(), &[0]).unwrap();
        replay.close().unwrap();
        assert_eq!((replay.total_jumps(), replay.transfers(), replay.pairs[0][2]), (1, 1, 1));
    }

    #[test]
    fn t7_any_order() {
        assert_eq!(run(&[(0, &[0]), (2, &[1, 0])]), run(&[(0, &[0]), (2, &[0, 1])]));
    }

    #[test]
    fn t8_t9_refused_events() {
        let mut replay = run(&[]);
        let before = replay.clone();
        assert_eq!(replay.event(2, &[1, 2]), Err(27));
        assert_eq!(replay.event(2, &[0]), Err(24));
        assert_eq!(replay.event(3, &[1]), Err(26));
        assert_eq!(replay.event(4, &[0]), Err(23));
        assert_eq!(replay.event(2, &[0, 3]), Err(25));
        assert_eq!(replay, before);
    }

    #[test]
    fn t10_after_the_close() {
        let mut replay = closed(T4);
        assert_eq!(replay.close(), Err(31));
        assert_eq!(replay.event(0, &[0]), Err(21));
    }

    #[test]
    fn t11_limits() {
        assert!(Replay::start(&table_m(), &[1; 1024]).is_ok());
        assert_eq!(Replay::start(&table_m(), &[1; 1025]).err(), Some(11));
        let with_places = |n| {
            let table = [bytes_of(&[0, 1]), bytes_of(&vec![0; n]), bytes_of(&[1]), bytes_of(&[0, 1])];
            Net::load(&file_of(&table)).err()
        };
        assert_eq!(with_places(64), None);
        assert_eq!(with_places(65), Some(3));
    }

    #[test]
    fn t12_a_million_events() {
        let mut replay = run(&[]);
        for _ in 0..1_000_000 {
            replay.event(2, &[0, 1]).unwrap();
        }
        assert_eq!(replay.event(2, &[0, 1]), Err(22));
        replay.close().unwrap();
        assert_eq!((replay.events, replay.transfers()), (1_000_000, 2_000_003));
        assert_eq!(Replay::restore(&replay.save()), Ok(replay));
    }

    #[test]
    fn t13_thousandths() {
        assert_eq!(fitness(4, 10), "0.600");
        assert_eq!(fitness(1, 3), "0.667");
        assert_eq!(fitness(1, 100_000), "0.999");
        assert_eq!(fitness(0, 9), "1.000");
        assert_eq!(fitness(0, 0), "-");
        // halves go up, but not to 1.000 where there is a jump
        assert_eq!(fitness(1, 16), "0.938");
        assert_eq!(fitness(3, 2000), "0.999");
        assert_eq!(fitness(1, 2000), "0.999");
        assert_eq!(fitness(1, 8_001_024), "0.999");
        assert_eq!(fitness(8_001_024, 8_001_024), "0.000");
    }

    /// By looking: of all figures that may be shown the one that lies nearest, and of two that lie as near the upper.
    #[test]
    fn thousandths_are_the_nearest() {
        for transfers in (1..=200i64).chain(1990..=2010).chain(3990..=4010) {
            for jumps in 0..=transfers.min(200) {
                let most = if jumps == 0 { 1000 } else { 999 };
                let away = |n: i64| (n * transfers - 1000 * (transfers - jumps)).abs();
                let n = (0..=most).rev().min_by_key(|&n| away(n)).unwrap();
                assert!(away(n) < transfers, "{jumps} of {transfers}: not within one thousandth");
                assert_eq!(fitness(jumps as u64, transfers as u64), format!("{}.{:03}", n / 1000, n % 1000), "{jumps} of {transfers}");
            }
        }
    }
}
