//! Inputs for the measurements: a net, a register and a trace of events, jumps included. Everything follows from a seed.

use crate::oracle::{bytes_of, file_of, table_m, word, Arc, Kind, Net, REGISTER_M};

/// A route table, the kinds of the objects, and the body of a trail file's events, all as bytes.
pub struct Input {
    pub table: Vec<u8>,
    pub register: Vec<u8>,
    pub events: Vec<u8>,
    pub event_count: usize,
    /// where each event starts in `events`
    pub starts: Vec<usize>,
}

impl Input {
    /// The trail file.
    pub fn trail_file(&self) -> Vec<u8> {
        file_of(&[self.register.clone(), self.events.clone()])
    }

    /// An event as the C functions take it: the activity and the bytes of its objects.
    pub fn event(&self, i: usize) -> (u32, &[u8]) {
        let start = self.starts[i];
        let end = self.starts.get(i + 1).copied().unwrap_or(self.events.len());
        (word(&self.events, start), &self.events[start + 8..end])
    }

    /// Random events: in nine of ten choices an object that stands on the input place, where there is one.
    fn new(net: &Net, kinds: &[u32], event_count: usize) -> Input {
        let mut seed = 0x5851_f42d_4c95_7f2d_u64;
        let mut below = move |n: usize| {
            seed = seed.wrapping_mul(6_364_136_223_846_793_005).wrapping_add(1_442_695_040_888_963_407);
            ((seed >> 33) % n as u64) as usize
        };
        let mut of_kind = vec![Vec::new(); net.kinds.len()];
        let mut standing = vec![Vec::new(); net.places.len()];
        let mut place = Vec::new();
        for (object, &kind) in kinds.iter().enumerate() {
            let source = net.kinds[kind as usize].source;
            of_kind[kind as usize].push(object);
            standing[source].push(object);
            place.push(source);
        }
        let mut events = Vec::new();
        let mut starts = Vec::new();
        for _ in 0..event_count {
            let activity = below(net.activities.len());
            let arcs = &net.activities[activity];
            starts.push(4 * events.len());
            events.extend([activity as u32, arcs.len() as u32]);
            for arc in arcs {
                let (mine, ready) = (&of_kind[net.places[arc.input]], &standing[arc.input]);
                let faithful = !ready.is_empty() && below(10) > 0;
                let object = if faithful { ready[below(ready.len())] } else { mine[below(mine.len())] };
                let at = standing[place[object]].iter().position(|&o| o == object).unwrap();
                standing[place[object]].swap_remove(at);
                standing[arc.output].push(object);
                place[object] = arc.output;
                events.push(object as u32);
            }
        }
        Input { table: net.table(), register: bytes_of(kinds), events: bytes_of(&events), event_count, starts }
    }
}

/// Table M of document 01 with its register, a script and two sheets: events of one or two objects.
pub fn marking(event_count: usize) -> Input {
    Input::new(&Net::load(&table_m()).unwrap(), &REGISTER_M, event_count)
}

/// 8 kinds, `places` places, 64 activities of 8 arcs and `objects` objects; with 64 places and 1,024 objects the full net.
/// The places of a kind are a ring, and each activity moves an object of each kind one place on.
pub fn ring(places: usize, objects: usize, event_count: usize) -> Input {
    let ring = places / 8;
    let at = |kind: usize, i: usize| kind * ring + i % ring;
    let net = Net {
        kinds: (0..8).map(|k| Kind { source: at(k, 0), sink: at(k, ring - 1) }).collect(),
        places: (0..8 * ring).map(|p| p / ring).collect(),
        activities: (0..64).map(|a| (0..8).map(|k| Arc { input: at(k, a + k), output: at(k, a + k + 1) }).collect()).collect(),
    };
    let kinds: Vec<u32> = (0..objects).map(|o| (o % 8) as u32).collect();
    Input::new(&net, &kinds, event_count)
}

/// Between table M and the full net: 8 kinds, 64 places, 256 objects, and 64 activities of 1 to 8 arcs, as many of each.
/// The places of a kind are a ring, as above.
pub fn mixed(event_count: usize) -> Input {
    let at = |kind: usize, i: usize| kind * 8 + i % 8;
    let net = Net {
        kinds: (0..8).map(|k| Kind { source: at(k, 0), sink: at(k, 7) }).collect(),
        places: (0..64).map(|p| p / 8).collect(),
        activities: (0..64)
            .map(|a| {
                let (first, more, i) = (a / 8, a % 8, a / 8 + a % 8);
                (first..=first + more).map(|k| Arc { input: at(k % 8, i), output: at(k % 8, i + 1) }).collect()
            })
            .collect(),
    };
    let kinds: Vec<u32> = (0..256).map(|o| o % 8).collect();
    Input::new(&net, &kinds, event_count)
}
