//! The searches for arrivals of made traffic in plain Rust, for comparison: no proofs, no reply and no check, and what is
//! read is trusted. `plain_search FORM AIRPORT COMMANDS TRANSCRIPT` searches for each arrival, compares the number of rows
//! of its table with that of the transcript, puts the transcript's route in force, and tells the time of the searches.
//!
//! The forms: `each-visit` looks at the windows of an arc whenever a cell leads to it, and `once` only at those that no cell
//! has come to yet; both keep labels by the cells' numbers, room for each window of each arc. `beside` keeps the labels of a
//! search side by side, as they are made.

use std::cmp::Reverse;
use std::collections::{BinaryHeap, HashMap};
use std::fs::{File, read_to_string};
use std::io::{BufRead, BufReader};
use std::time::{Duration, Instant};

const NONE: u32 = u32::MAX;

#[derive(Clone, Copy)]
struct Window {
    from: u32,
    until: u32,
}

/// An arc in a window, with the second at which it can be left, and the next label of the arc.
#[derive(Clone, Copy)]
struct Label {
    value: u32,
    arc: u32,
    window: Window,
    next: u32,
}

#[derive(Clone, Copy, PartialEq)]
enum Form {
    EachVisit,
    Once,
    Beside,
}

#[derive(Default)]
struct Airport {
    segments: HashMap<String, usize>,
    nodes: HashMap<String, usize>,
    classes: HashMap<String, usize>,
    horizon: u32,
    // By class and segment.
    seconds: Vec<Vec<u32>>,
    // By segment, itself among them.
    conflicts: Vec<Vec<usize>>,
    // Arc 2 * s is segment s from its first node to its second, and the one behind it the way back.
    heads: Vec<usize>,
    leaving: Vec<Vec<u32>>,
    next: Vec<Vec<u32>>,
}

fn airport(text: &str) -> Airport {
    let mut airport = Airport::default();
    for line in text.lines() {
        let fields: Vec<&str> = line.split(',').collect();
        match fields[0] {
            "horizon" => airport.horizon = fields[1].parse().unwrap(),
            "node" => {
                airport.nodes.insert(fields[1].into(), airport.nodes.len());
                airport.leaving.push(Vec::new());
            }
            "class" => {
                airport.classes.insert(fields[1].into(), airport.classes.len());
                airport.seconds.push(Vec::new());
            }
            "segment" => {
                let segment = airport.segments.len();
                airport.segments.insert(fields[1].into(), segment);
                let (first, second) = (airport.nodes[fields[2]], airport.nodes[fields[3]]);
                airport.heads.extend([second, first]);
                airport.leaving[first].push(2 * segment as u32);
                airport.leaving[second].push(2 * segment as u32 + 1);
                airport.conflicts.push(vec![segment]);
                airport.seconds.iter_mut().for_each(|row| row.push(0));
            }
            "seconds" => {
                let (segment, class) = (airport.segments[fields[1]], airport.classes[fields[2]]);
                airport.seconds[class][segment] = fields[3].parse().unwrap();
            }
            "conflict" => {
                let (a, b) = (airport.segments[fields[1]], airport.segments[fields[2]]);
                airport.conflicts[a].push(b);
                airport.conflicts[b].push(a);
            }
            _ => {}
        }
    }
    for (arc, head) in airport.heads.iter().enumerate() {
        let turns = airport.leaving[*head].iter().copied();
        airport.next.push(turns.filter(|next| *next as usize / 2 != arc / 2).collect());
    }
    airport
}

/// What a search works with, kept from one to the next.
#[derive(Default)]
struct Room {
    heap: BinaryHeap<Reverse<u64>>,
    // By arc: until before which second its windows were come to, and the first window that was not.
    reached: Vec<u32>,
    window: Vec<u32>,
    // Side by side: labels as they are made, with the first and the last of each arc.
    labels: Vec<Label>,
    first: Vec<u32>,
    last: Vec<u32>,
    // By numbers: the first number of each arc, the value of each number, a bit for each that has one, and for eight
    // numbers at once their arc and its first number.
    numbers: Vec<u32>,
    values: Vec<u32>,
    marks: Vec<u64>,
    stretches: Vec<(u32, u32)>,
    rows: Vec<Label>,
    // For how many seconds searches look first.
    reach: u32,
}

struct Search<'a> {
    form: Form,
    windows: &'a [Vec<Window>],
    seconds: &'a [u32],
    until: u32,
}

impl Room {
    /// Numbers for all windows, laid anew where an arc has too few.
    fn fit(&mut self, windows: &[Vec<Window>]) {
        let arcs = 2 * windows.len();
        let fits = |arc: usize| windows[arc / 2].len() <= (self.numbers[arc + 1] - self.numbers[arc]) as usize;
        if self.numbers.len() == arcs + 1 && (0..arcs).all(fits) {
            return;
        }
        self.numbers.clear();
        self.stretches.clear();
        for arc in 0..arcs {
            let first = 8 * self.stretches.len() as u32;
            self.numbers.push(first);
            let stretches = windows[arc / 2].len() * 3 / 2 / 8 + 1;
            self.stretches.extend((0..stretches).map(|_| (arc as u32, first)));
        }
        let count = 8 * self.stretches.len();
        self.numbers.push(count as u32);
        self.values = vec![NONE; count];
        self.marks = vec![0; count / 64 + 1];
    }

    fn begin(&mut self, arcs: usize) {
        self.heap.clear();
        self.labels.clear();
        for table in [&mut self.reached, &mut self.window, &mut self.last] {
            table.resize(arcs, 0);
        }
        self.reached.fill(0);
        self.first.resize(arcs, NONE);
        self.first.fill(NONE);
    }

    /// Comes to an arc from `at` on, by `last`.
    #[inline(always)]
    fn come_to(&mut self, search: &Search, arc: usize, at: u32, last: u32) {
        let row = &search.windows[arc / 2];
        let known = if search.form == Form::EachVisit { 0 } else { self.reached[arc] };
        if last < known {
            return;
        }
        let mut place = match known {
            0 => row.partition_point(|window| window.until < at),
            _ => self.window[arc] as usize,
        };
        while place < row.len() && row[place].from <= last {
            let value = at.max(row[place].from) + search.seconds[arc / 2];
            if at <= row[place].until && value <= row[place].until.min(search.until) {
                self.offer(search.form, arc, place, row[place], value);
            }
            place += 1;
        }
        self.window[arc] = place as u32;
        self.reached[arc] = last + 1;
    }

    #[inline(always)]
    fn offer(&mut self, form: Form, arc: usize, place: usize, window: Window, value: u32) {
        let key = if form == Form::Beside {
            let label = self.labels.len() as u32;
            self.labels.push(Label { value, arc: arc as u32, window, next: NONE });
            if self.first[arc] == NONE {
                self.first[arc] = label;
            } else {
                self.labels[self.last[arc] as usize].next = label;
            }
            self.last[arc] = label;
            label
        } else {
            let number = self.numbers[arc] + place as u32;
            if self.values[number as usize] <= value {
                return;
            }
            self.values[number as usize] = value;
            self.marks[number as usize / 64] |= 1 << (number % 64);
            number
        };
        self.heap.push(Reverse(u64::from(value) << 32 | u64::from(key)));
    }

    #[inline(always)]
    fn label(&self, search: &Search, key: u32, value: u32) -> Label {
        if search.form == Form::Beside {
            return self.labels[key as usize];
        }
        let (arc, first) = self.stretches[key as usize / 8];
        let window = search.windows[arc as usize / 2][(key - first) as usize];
        Label { value, arc, window, next: NONE }
    }

    /// Takes the labels that are below a second to the rows, by arc and window.
    fn take_rows(&mut self, search: &Search, below: u32) {
        self.rows.clear();
        for arc in 0..self.first.len() {
            let mut at = self.first[arc];
            while at != NONE {
                let label = self.labels[at as usize];
                if label.value < below {
                    self.rows.push(label);
                }
                at = label.next;
            }
        }
        for group in 0..self.marks.len() {
            let mut marks = std::mem::take(&mut self.marks[group]);
            while marks != 0 {
                let number = group * 64 + marks.trailing_zeros() as usize;
                marks &= marks - 1;
                let value = std::mem::replace(&mut self.values[number], NONE);
                if value < below {
                    self.rows.push(self.label(search, number as u32, value));
                }
            }
        }
    }

    /// The best end of the walks that enter an arc of `first` from `at` on by `by`, and lead to a node.
    fn search(&mut self, airport: &Airport, search: &Search, first: &[u32], at: u32, by: u32, to: usize) -> Option<u32> {
        self.begin(airport.heads.len());
        for arc in first {
            self.come_to(search, *arc as usize, at, by);
        }
        let mut best = None;
        while let Some(Reverse(least)) = self.heap.pop() {
            let label = self.label(search, least as u32, (least >> 32) as u32);
            if airport.heads[label.arc as usize] == to {
                best = Some(label.value);
                break;
            }
            for next in &airport.next[label.arc as usize] {
                self.come_to(search, *next as usize, label.value, label.window.until.min(search.until));
            }
        }
        self.take_rows(search, best.unwrap_or(NONE));
        best
    }
}

fn hold(row: &mut Vec<Window>, from: u32, until: u32) {
    let mut left = Vec::with_capacity(row.len() + 1);
    for window in row.iter() {
        let before = Window { from: window.from, until: window.until.min(from) };
        let after = Window { from: window.from.max(until), until: window.until };
        left.extend([before, after].iter().copied().filter(|part| part.from < part.until));
    }
    *row = left;
}

fn main() {
    let words: Vec<String> = std::env::args().collect();
    let form = match words[1].as_str() {
        "each-visit" => Form::EachVisit,
        "once" => Form::Once,
        _ => Form::Beside,
    };
    let airport = airport(&read_to_string(&words[2]).unwrap());
    let commands = read_to_string(&words[3]).unwrap();
    let mut transcript = BufReader::with_capacity(1 << 20, File::open(&words[4]).unwrap()).lines();
    let mut windows = vec![vec![Window { from: 0, until: airport.horizon }]; airport.conflicts.len()];
    let mut room = Room::default();
    let (mut time, mut rows) = (Duration::ZERO, 0);
    for command in commands.lines() {
        let asked: Vec<&str> = command.split(' ').collect();
        let head = transcript.next().unwrap().unwrap();
        // `route FLIGHT SECOND STEPS ROWS`, or `no-route ROWS`.
        let fields: Vec<&str> = head.split(' ').collect();
        let steps: usize = if fields[0] == "route" { fields[3].parse().unwrap() } else { 0 };
        let labels: usize = fields[fields.len() - 1].parse().unwrap();
        let block: Vec<String> = (0..steps + labels).map(|_| transcript.next().unwrap().unwrap()).collect();
        if asked[0] == "arrival" {
            let (at, queue): (u32, u32) = (asked[5].parse().unwrap(), asked[6].parse().unwrap());
            let (first, to) = (&airport.leaving[airport.nodes[asked[3]]], airport.nodes[asked[4]]);
            let seconds = &airport.seconds[airport.classes[asked[2]]];
            let begun = Instant::now();
            if form != Form::Beside {
                room.fit(&windows);
            }
            let near = Search { form, windows: &windows, seconds, until: at + room.reach };
            let best = room.search(&airport, &near, first, at, at + queue, to).or_else(|| {
                let whole = Search { until: NONE, ..near };
                room.search(&airport, &whole, first, at, at + queue, to)
            });
            if let Some(best) = best {
                let taken = best - at;
                room.reach = (taken + taken / 2).max(room.reach - room.reach / 64);
            }
            time += begun.elapsed();
            assert_eq!(room.rows.len(), labels, "rows of {command}");
            rows += room.rows.len();
        }
        for step in &block[..steps] {
            let fields: Vec<&str> = step.split(' ').collect();
            let segment = airport.segments[&fields[1][..fields[1].len() - 1]];
            for other in &airport.conflicts[segment] {
                hold(&mut windows[*other], fields[2].parse().unwrap(), fields[3].parse().unwrap());
            }
        }
    }
    println!("{}: {rows} rows, {:.2} s, {:.0} ns a row", words[1], time.as_secs_f64(), time.as_nanos() as f64 / rows as f64);
}
