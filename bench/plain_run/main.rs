//! The whole run over made traffic in plain Rust, for comparison: each command is answered by a search, the block of its answer
//! is printed, read back, checked by rules that know nothing of the search, and its flight put in force for both.
//!
//! It does what `generate` does with nothing proved, and no more: airports of version 1 with no forbidden turn, `arrival` and
//! `departure` commands that are refused nothing, and files that are trusted. The router and the checker have each their own
//! windows, and share only the airport, what a request asks, and how holds are taken out of windows.
//!
//! `plain_run [--parts] [--corrupt] AIRPORT COMMANDS [TRANSCRIPT]` prints the six lines of `generate`, and writes what `route`
//! writes to the file TRANSCRIPT, if there is one. With `--parts` it tells on standard error how long each part took. With
//! `--corrupt` a row of each table is first made worse by a second, and the run ends where such a table passes.

use std::cmp::Reverse;
use std::collections::{BinaryHeap, HashMap};
use std::fs::{File, read_to_string};
use std::io::Write;
use std::time::{Duration, Instant};

const NONE: u32 = u32::MAX;
/// The seconds of a class on a segment that it may not use: more than fit in any window.
const BARRED: u32 = 1 << 26;
/// The second from which a search that goes back in time counts down. No second of a file is past it.
const MIRROR: u32 = 1 << 24;

#[derive(Clone, Copy, PartialEq)]
struct Window {
    from: u32,
    until: u32,
}

/// A second as a search counts it, which goes on from a runway for arrivals, and back from one for departures.
fn turned<const BACK: bool>(second: u32) -> u32 {
    if BACK { MIRROR - second } else { second }
}

impl Window {
    fn turned<const BACK: bool>(self) -> Window {
        if BACK { Window { from: MIRROR - self.until, until: MIRROR - self.from } } else { self }
    }
}

/// The windows of a segment in the order in which a search comes to them.
struct InTurn<'a, const BACK: bool>(&'a [Window]);

impl<const BACK: bool> InTurn<'_, BACK> {
    /// The place in the order of time.
    fn place(&self, turn: usize) -> usize {
        if BACK { self.0.len() - 1 - turn } else { turn }
    }

    /// A window that may be entered by `last`.
    fn get(&self, turn: usize, last: u32) -> Option<Window> {
        let window = if turn < self.0.len() { self.0[self.place(turn)].turned::<BACK>() } else { return None };
        (window.from <= last).then_some(window)
    }

    /// The first window that is not over before a second.
    fn open_at(&self, second: u32) -> usize {
        if BACK {
            self.0.len() - self.0.partition_point(|window| window.from <= MIRROR - second)
        } else {
            self.0.partition_point(|window| window.until < second)
        }
    }
}

/// Takes the seconds that steps hold out of the windows of the segments in conflict, which stand in order.
fn put_in_force(windows: &mut [Vec<Window>], airport: &Airport, steps: &[Step]) {
    for Step { arc, enter, leave } in steps {
        for segment in &airport.conflicts[*arc as usize / 2] {
            let windows = &mut windows[*segment as usize];
            let first = windows.partition_point(|window| window.until <= *enter);
            let behind = windows.partition_point(|window| window.from < *leave);
            if first < behind {
                let before = Window { from: windows[first].from, until: *enter };
                let after = Window { from: *leave, until: windows[behind - 1].until };
                windows.splice(first..behind, [before, after].into_iter().filter(|part| part.from < part.until));
            }
        }
    }
}

// ---- the airport and what is asked

type Names = HashMap<Vec<u8>, u32>;

/// How arcs follow one another for a search: as aircraft go, or against it.
struct Graph {
    // By arc: the node to which it leads, and the arcs that may follow.
    leads_to: Vec<u32>,
    after: Vec<Vec<u32>>,
    // By node: the arcs that begin there.
    leaving: Vec<Vec<u32>>,
}

impl Graph {
    fn new(nodes: usize, tails: &[u32], heads: &[u32]) -> Graph {
        let mut leaving = vec![Vec::new(); nodes];
        for (arc, tail) in tails.iter().enumerate() {
            leaving[*tail as usize].push(arc as u32);
        }
        let after = |(arc, head): (u32, &u32)| leaving[*head as usize].iter().copied().filter(|to| to / 2 != arc / 2).collect();
        Graph { leads_to: heads.to_vec(), after: (0..).zip(heads).map(after).collect(), leaving }
    }
}

struct Airport {
    horizon: u32,
    nodes: Names,
    classes: Names,
    // Arc 2 * s is segment s from its first node to its second, and the one behind it the way back.
    arcs: Names,
    arc_names: Vec<Vec<u8>>,
    // By class and segment.
    seconds: Vec<Vec<u32>>,
    // By segment, itself among them.
    conflicts: Vec<Vec<u32>>,
    onward: Graph,
    back: Graph,
}

impl Airport {
    fn read(text: &str) -> Airport {
        let (mut nodes, mut classes, mut segments) = (Names::new(), Names::new(), Names::new());
        let (mut horizon, mut arc_names, mut tails, mut heads) = (0, Vec::new(), Vec::new(), Vec::new());
        let (mut seconds, mut conflicts): (Vec<Vec<u32>>, Vec<Vec<u32>>) = (Vec::new(), Vec::new());
        let add = |names: &mut Names, name: &str| names.insert(name.into(), names.len() as u32);
        let find = |names: &Names, name: &str| names[name.as_bytes()];
        for line in text.lines().skip(1) {
            match line.split(',').collect::<Vec<&str>>()[..] {
                ["horizon", second] => horizon = second.parse().unwrap(),
                ["node", name, _] => drop(add(&mut nodes, name)),
                ["class", name] => {
                    add(&mut classes, name);
                    seconds.push(vec![BARRED; segments.len()]);
                }
                ["segment", name, first, second, "both"] => {
                    let (first, second) = (find(&nodes, first), find(&nodes, second));
                    tails.extend([first, second]);
                    heads.extend([second, first]);
                    arc_names.extend(["+", "-"].map(|sign| format!("{name}{sign}").into_bytes()));
                    conflicts.push(vec![segments.len() as u32]);
                    seconds.iter_mut().for_each(|row| row.push(BARRED));
                    add(&mut segments, name);
                }
                ["seconds", segment, class, number] => {
                    seconds[find(&classes, class) as usize][find(&segments, segment) as usize] = number.parse().unwrap();
                }
                ["conflict", first, second] => {
                    let (first, second) = (find(&segments, first), find(&segments, second));
                    conflicts[first as usize].push(second);
                    conflicts[second as usize].push(first);
                }
                _ => panic!("the record {line}"),
            }
        }
        let (onward, back) = (Graph::new(nodes.len(), &tails, &heads), Graph::new(nodes.len(), &heads, &tails));
        let arcs = arc_names.iter().cloned().zip(0..).collect();
        Airport { horizon, nodes, classes, arcs, arc_names, seconds, conflicts, onward, back }
    }

    /// The arcs as a search goes, and against it.
    fn graphs<const BACK: bool>(&self) -> (&Graph, &Graph) {
        if BACK { (&self.back, &self.onward) } else { (&self.onward, &self.back) }
    }
}

/// What a flight asks, as a search takes it: to go from a node, at the earliest and at the latest at these seconds, to a node.
struct Request<'a> {
    flight: &'a str,
    departs: bool,
    class: usize,
    from: u32,
    at: u32,
    by: u32,
    to: u32,
}

impl<'a> Request<'a> {
    fn read(line: &'a str, airport: &Airport) -> Request<'a> {
        let words: Vec<&str> = line.split(' ').collect();
        let [form, flight, class, from, to, time, slack] = words[..] else { panic!("the command {line}") };
        let (time, slack): (u32, u32) = (time.parse().unwrap(), slack.parse().unwrap());
        let class = airport.classes[class.as_bytes()] as usize;
        let (from, to) = (airport.nodes[from.as_bytes()], airport.nodes[to.as_bytes()]);
        if form == "arrival" {
            return Request { flight, departs: false, class, from, at: time, by: time + slack, to };
        }
        let (at, by) = (MIRROR - time, MIRROR - time.saturating_sub(slack));
        Request { flight, departs: true, class, from: to, at, by, to: from }
    }
}

// ---- blocks

#[derive(Clone, Copy)]
struct Step {
    arc: u32,
    enter: u32,
    leave: u32,
}

/// A label: an arc in a window of its segment, and its value. In a search the value is as the search counts seconds.
#[derive(Clone, Copy)]
struct Row {
    arc: u32,
    window: Window,
    value: u32,
}

#[derive(Default)]
struct Block {
    flight: Vec<u8>,
    // When the route ends, or for a departure begins. None where there is no route.
    second: Option<u32>,
    steps: Vec<Step>,
    rows: Vec<Row>,
}

/// The digits of the numbers below 1,000.
static DIGITS: [[u8; 3]; 1000] = {
    let mut digits = [[b'0'; 3]; 1000];
    let mut number = 0;
    while number < 1000 {
        digits[number] = [b'0' + (number / 100) as u8, b'0' + (number / 10 % 10) as u8, b'0' + (number % 10) as u8];
        number += 1;
    }
    digits
};

/// A line that is written from its end to its front, so that each digit stands at once where it is to stand.
struct Line {
    bytes: [u8; 64],
    at: usize,
}

impl Line {
    fn put(&mut self, bytes: &[u8]) {
        self.at -= bytes.len();
        self.bytes[self.at..][..bytes.len()].copy_from_slice(bytes);
    }

    /// Puts three digits at a time. Zeros at the front are taken back, to be written over.
    fn put_number(&mut self, mut number: u32) {
        while number > 999 {
            self.put(&DIGITS[number as usize % 1000]);
            number /= 1000;
        }
        self.put(&DIGITS[number as usize]);
        self.at += usize::from(number < 10) + usize::from(number < 100);
    }
}

fn print_line(text: &mut Vec<u8>, word: &[u8], name: &[u8], numbers: &[u32]) {
    let mut line = Line { bytes: [b'\n'; 64], at: 63 };
    for number in numbers.iter().rev() {
        line.put_number(*number);
        line.put(b" ");
    }
    line.put(name);
    line.put(word);
    text.extend_from_slice(&line.bytes[line.at..]);
}

/// What is left of a text.
struct Reader<'a>(&'a [u8]);

impl<'a> Reader<'a> {
    /// A name, and the blank behind it.
    fn name(&mut self) -> Option<&'a [u8]> {
        let length = self.0.iter().position(|byte| *byte == b' ')?;
        let name = &self.0[..length];
        self.0 = &self.0[length + 1..];
        Some(name)
    }

    /// An arc. It is mostly the one given or not far behind it, since rows rise.
    fn arc(&mut self, airport: &Airport, first: u32) -> Option<u32> {
        let name = self.name()?;
        let near = airport.arc_names[first as usize..].iter().position(|other| other == name);
        near.map(|behind| first + behind as u32).or_else(|| airport.arcs.get(name).copied())
    }

    /// A number of 1 to 7 digits with no zero in front, and the byte behind it.
    fn number(&mut self, end: u8) -> Option<u32> {
        let (text, mut number, mut length) = (self.0, 0, 0);
        while length < 8 && text.get(length)?.is_ascii_digit() {
            number = number * 10 + u32::from(text[length] - b'0');
            length += 1;
        }
        self.0 = text.get(length + 1..)?;
        let is_number = (1..8).contains(&length) && (text[0] != b'0' || length == 1) && text[length] == end;
        is_number.then_some(number)
    }
}

impl Block {
    fn print(&self, airport: &Airport, text: &mut Vec<u8>) {
        let name = |arc: u32| &airport.arc_names[arc as usize][..];
        let (steps, rows) = (self.steps.len() as u32, self.rows.len() as u32);
        text.clear();
        match self.second {
            Some(second) => print_line(text, b"route ", &self.flight, &[second, steps, rows]),
            None => print_line(text, b"no", b"-route", &[rows]),
        }
        for step in &self.steps {
            print_line(text, b"step ", name(step.arc), &[step.enter, step.leave]);
        }
        for row in &self.rows {
            print_line(text, b"label ", name(row.arc), &[row.window.from, row.window.until, row.value]);
        }
    }

    fn read(&mut self, airport: &Airport, text: &[u8]) -> Option<()> {
        let (mut text, mut steps) = (Reader(text), 0);
        self.second = None;
        self.steps.clear();
        self.rows.clear();
        if let Some(behind) = text.0.strip_prefix(b"no-route ") {
            text.0 = behind;
        } else {
            text.0 = text.0.strip_prefix(b"route ")?;
            self.flight = text.name()?.into();
            self.second = Some(text.number(b' ')?);
            steps = text.number(b' ')?;
        }
        let (rows, mut arc) = (text.number(b'\n')?, 0);
        for _ in 0..steps {
            text.0 = text.0.strip_prefix(b"step ")?;
            let arc = *airport.arcs.get(text.name()?)?;
            self.steps.push(Step { arc, enter: text.number(b' ')?, leave: text.number(b'\n')? });
        }
        for _ in 0..rows {
            text.0 = text.0.strip_prefix(b"label ")?;
            arc = text.arc(airport, arc)?;
            let (from, until) = (text.number(b' ')?, text.number(b' ')?);
            self.rows.push(Row { arc, window: Window { from, until }, value: text.number(b'\n')? });
        }
        text.0.is_empty().then_some(())
    }
}

// ---- the router

/// The windows of each segment, and what searches work with. Each arc in each window is a cell, numbered by arcs and windows.
#[derive(Default)]
struct Router {
    windows: Vec<Vec<Window>>,
    heap: BinaryHeap<Reverse<u64>>,
    // By arc: until before which second its windows were come to, and the first window that was not.
    reached: Vec<u32>,
    turns: Vec<u32>,
    // The first cell of each arc, the value of each cell, a bit for each that has one, and by eight cells the arc and its first.
    cells: Vec<u32>,
    values: Vec<u32>,
    marks: Vec<u64>,
    stretches: Vec<(u32, u32)>,
    // For how many seconds searches look first.
    near: u32,
    answer: Block,
}

impl Router {
    /// Numbers the cells anew where an arc has more windows than cells, with room for half as many windows more.
    fn lay_cells(&mut self) {
        let fits = |segment: usize| self.windows[segment].len() as u32 <= self.cells[2 * segment + 1] - self.cells[2 * segment];
        if !self.cells.is_empty() && (0..self.windows.len()).all(fits) {
            return;
        }
        let arcs = 2 * self.windows.len();
        self.reached.resize(arcs, 0);
        self.turns.resize(arcs, 0);
        self.cells.clear();
        self.stretches.clear();
        for arc in 0..arcs {
            let first = 8 * self.stretches.len() as u32;
            self.cells.push(first);
            let stretches = self.windows[arc / 2].len() * 3 / 2 / 8 + 1;
            self.stretches.extend((0..stretches).map(|_| (arc as u32, first)));
        }
        let count = 8 * self.stretches.len();
        self.values = vec![NONE; count];
        self.marks = vec![0; count / 64 + 1];
    }

    /// Finds the best route and its table. A search looks near first, and to the horizon only if it finds nothing there.
    fn find<const BACK: bool>(&mut self, airport: &Airport, request: &Request) {
        self.lay_cells();
        self.answer.flight = request.flight.into();
        self.answer.steps.clear();
        let goal = self.search::<BACK>(airport, request, request.at + self.near).or_else(|| {
            self.take_rows::<BACK>(0);
            self.search::<BACK>(airport, request, NONE)
        });
        let best = goal.as_ref().map(|goal| goal.value);
        self.answer.second = best.map(turned::<BACK>);
        if let Some(goal) = goal {
            let taken = goal.value - request.at;
            self.near = (taken + taken / 2).max(self.near - self.near / 64);
            self.trace::<BACK>(airport, request, goal);
        }
        self.take_rows::<BACK>(best.unwrap_or(NONE));
    }

    /// Gives cells their values, least first, up to the first that leads to the node asked for. No value is past `until`.
    fn search<const BACK: bool>(&mut self, airport: &Airport, request: &Request, until: u32) -> Option<Row> {
        let (graph, seconds) = (airport.graphs::<BACK>().0, &airport.seconds[request.class]);
        self.heap.clear();
        self.reached.fill(0);
        for arc in &graph.leaving[request.from as usize] {
            self.come_to::<BACK>(*arc as usize, seconds, request.at, request.by, until);
        }
        while let Some(Reverse(least)) = self.heap.pop() {
            let label = self.label(least as u32, (least >> 32) as u32);
            if graph.leads_to[label.arc as usize] == request.to {
                return Some(label);
            }
            let last = label.window.turned::<BACK>().until.min(until);
            for next in &graph.after[label.arc as usize] {
                self.come_to::<BACK>(*next as usize, seconds, label.value, last, until);
            }
        }
        None
    }

    /// Gives values to the windows of an arc that may be entered from `at` on, by `last`. Since `at` rises from call to call, a
    /// window that was come to would get no better value, and is not looked at again.
    #[inline(always)]
    fn come_to<const BACK: bool>(&mut self, arc: usize, seconds: &[u32], at: u32, last: u32, until: u32) {
        let reached = self.reached[arc];
        if last < reached {
            return;
        }
        let windows = InTurn::<BACK>(&self.windows[arc / 2]);
        let mut turn = if reached == 0 { windows.open_at(at) } else { self.turns[arc] as usize };
        while let Some(window) = windows.get(turn, last) {
            let value = at.max(window.from) + seconds[arc / 2];
            if value <= window.until.min(until) {
                let cell = self.cells[arc] as usize + windows.place(turn);
                self.values[cell] = value;
                self.marks[cell / 64] |= 1 << (cell % 64);
                self.heap.push(Reverse(u64::from(value) << 32 | cell as u64));
            }
            turn += 1;
        }
        self.turns[arc] = turn as u32;
        self.reached[arc] = last + 1;
    }

    fn label(&self, cell: u32, value: u32) -> Row {
        let (arc, first) = self.stretches[cell as usize / 8];
        Row { arc, window: self.windows[arc as usize / 2][(cell - first) as usize], value }
    }

    /// The steps of the walk to a label, traced from there back to the search's begin.
    fn trace<const BACK: bool>(&mut self, airport: &Airport, request: &Request, mut label: Row) {
        let against = airport.graphs::<BACK>().1;
        let mut leave = label.value;
        loop {
            let arc = label.arc as usize;
            let (enter, opens) = (label.value - airport.seconds[request.class][arc / 2], label.window.turned::<BACK>().from);
            let held = Window { from: enter, until: leave }.turned::<BACK>();
            self.answer.steps.push(Step { arc: label.arc, enter: held.from, leave: held.until });
            if against.leads_to[arc] == request.from && enter == request.at.max(opens) && enter <= request.by {
                break;
            }
            label = against.after[arc].iter().find_map(|arc| self.label_before::<BACK>(*arc, enter, opens)).expect("a label");
            leave = enter;
        }
        if !BACK {
            self.answer.steps.reverse();
        }
    }

    /// The label of an arc after which a window that opens at a second is entered at another. Only one window can have it.
    fn label_before<const BACK: bool>(&self, arc: u32, enter: u32, opens: u32) -> Option<Row> {
        let windows = InTurn::<BACK>(&self.windows[arc as usize / 2]);
        let turn = windows.open_at(enter);
        windows.get(turn, enter)?;
        let place = windows.place(turn);
        let value = self.values[self.cells[arc as usize] as usize + place];
        (value != NONE && value.max(opens) == enter).then_some(Row { arc, window: windows.0[place], value })
    }

    /// Takes all values away, and to the rows those that are below a second.
    fn take_rows<const BACK: bool>(&mut self, below: u32) {
        self.answer.rows.clear();
        for group in 0..self.marks.len() {
            let mut marks = std::mem::take(&mut self.marks[group]);
            while marks != 0 {
                let cell = group * 64 + marks.trailing_zeros() as usize;
                marks &= marks - 1;
                let value = std::mem::replace(&mut self.values[cell], NONE);
                if value < below {
                    let label = self.label(cell as u32, value);
                    self.answer.rows.push(Row { value: turned::<BACK>(value), ..label });
                }
            }
        }
    }
}

// ---- the checker

/// A way to a node, by an arc of the segment: from when the aircraft is there, and until when it can wait.
#[derive(Clone, Copy)]
struct Reach {
    segment: u32,
    at: u32,
    last: u32,
}

#[derive(Default)]
struct Checker {
    windows: Vec<Vec<Window>>,
    // The first row of each arc, and how many rows there are.
    firsts: Vec<u32>,
    reaches: Vec<Reach>,
}

impl Checker {
    /// Whether a block tells a best route, or that there is none; if not, a rule that it breaks.
    fn check<const BACK: bool>(&mut self, airport: &Airport, request: &Request, block: &Block) -> Result<(), &'static str> {
        let keeps = |rule, is_kept: bool| if is_kept { Ok(()) } else { Err(rule) };
        if block.second.is_some() {
            keeps("reply", block.flight == request.flight.as_bytes())?;
            keeps("walk", self.is_walk::<BACK>(airport, request, block))?;
        }
        keeps("rows", self.are_rows(airport, request, &block.rows))?;
        let bound = block.second.map_or(NONE, turned::<BACK>);
        keeps("start or step", self.are_closed::<BACK>(airport, request, &block.rows, bound))?;
        let graph = airport.graphs::<BACK>().0;
        let is_short = |row: &Row| turned::<BACK>(row.value) < bound && graph.leads_to[row.arc as usize] != request.to;
        keeps("target", block.rows.iter().all(is_short))
    }

    /// Whether the steps are a walk that is asked for, with the block's second.
    fn is_walk<const BACK: bool>(&self, airport: &Airport, request: &Request, block: &Block) -> bool {
        let (graph, against) = airport.graphs::<BACK>();
        let (Some(first), Some(last)) = (block.steps.first(), block.steps.last()) else { return false };
        let (begins, begin) = if BACK { (last.arc, last.leave) } else { (first.arc, first.enter) };
        let (ends, end) = if BACK { (first.arc, first.enter) } else { (last.arc, last.leave) };
        let is_feasible = |step: &Step| {
            let segment = step.arc as usize / 2;
            let windows = &self.windows[segment];
            let window = windows.get(windows.partition_point(|window| window.until < step.leave));
            let is_long = step.leave >= step.enter + airport.seconds[request.class][segment];
            is_long && window.is_some_and(|window| window.from <= step.enter)
        };
        let follows = |pair: &[Step]| {
            pair[0].leave == pair[1].enter && airport.onward.after[pair[0].arc as usize].contains(&pair[1].arc)
        };
        block.steps.iter().all(is_feasible)
            && block.steps.windows(2).all(follows)
            && against.leads_to[begins as usize] == request.from
            && (request.at..=request.by).contains(&turned::<BACK>(begin))
            && graph.leads_to[ends as usize] == request.to
            && block.second == Some(end)
    }

    /// Whether the rows rise, and each is of a window of a segment that the class may use. Finds the first row of each arc.
    fn are_rows(&mut self, airport: &Airport, request: &Request, rows: &[Row]) -> bool {
        self.firsts.clear();
        let mut behind = 0;
        for (index, row) in rows.iter().enumerate() {
            let (arc, segment) = (row.arc as usize, row.arc as usize / 2);
            if self.firsts.len() > arc + 1 {
                return false;
            } else if self.firsts.len() <= arc {
                self.firsts.resize(arc + 1, index as u32);
                behind = 0;
            }
            let windows = &self.windows[segment][behind..];
            let place = windows.partition_point(|window| window.from < row.window.from);
            if windows.get(place) != Some(&row.window) || airport.seconds[request.class][segment] == BARRED {
                return false;
            }
            behind += place + 1;
        }
        self.firsts.resize(airport.arc_names.len() + 1, rows.len() as u32);
        true
    }

    fn rows_of<'a>(&self, rows: &'a [Row], arc: u32) -> &'a [Row] {
        &rows[self.firsts[arc as usize] as usize..self.firsts[arc as usize + 1] as usize]
    }

    /// Whether each label by which a walk may begin or that comes of a row, if short of the bound, has a row at least as good.
    /// What leads to a node is gathered once for all arcs that leave it.
    fn are_closed<const BACK: bool>(&mut self, airport: &Airport, request: &Request, rows: &[Row], bound: u32) -> bool {
        let (graph, against) = airport.graphs::<BACK>();
        for node in 0..graph.leaving.len() {
            self.reaches.clear();
            if node == request.from as usize {
                self.reaches.push(Reach { segment: NONE, at: request.at, last: request.by });
            }
            for arc in &against.leaving[node] {
                for row in self.rows_of(rows, *arc) {
                    let (at, last) = (turned::<BACK>(row.value), row.window.turned::<BACK>().until);
                    let place = self.reaches.iter().rposition(|other| other.at <= at).map_or(0, |place| place + 1);
                    self.reaches.insert(place, Reach { segment: arc / 2, at, last });
                }
            }
            let is_served = |arc: &u32| {
                let seconds = airport.seconds[request.class][*arc as usize / 2];
                self.is_served::<BACK>(*arc, seconds, bound.saturating_sub(seconds), self.rows_of(rows, *arc))
            };
            if !graph.leaving[node].iter().all(is_served) {
                return false;
            }
        }
        true
    }

    /// Whether the windows of an arc that may be entered before the limit have rows at least as good. Reaches rise, so the first
    /// that comes to a window asks the most of it, and windows are looked at once, with the rows beside them.
    fn is_served<const BACK: bool>(&self, arc: u32, seconds: u32, limit: u32, rows: &[Row]) -> bool {
        let windows = InTurn::<BACK>(&self.windows[arc as usize / 2]);
        let row_at = |turn: usize| rows.get(if BACK { rows.len().wrapping_sub(turn + 1) } else { turn });
        let (mut next, mut next_row) = (None, 0);
        for reach in self.reaches.iter().filter(|reach| reach.segment != arc / 2).take_while(|reach| reach.at < limit) {
            let mut turn = next.unwrap_or_else(|| windows.open_at(reach.at));
            while let Some(window) = windows.get(turn, reach.last.min(limit - 1)) {
                turn += 1;
                let value = reach.at.max(window.from) + seconds;
                if value > window.until {
                    continue;
                }
                while row_at(next_row).is_some_and(|row| row.window.turned::<BACK>().from < window.from) {
                    next_row += 1;
                }
                let is_as_good = |row: &Row| row.window.turned::<BACK>() == window && turned::<BACK>(row.value) <= value;
                if !row_at(next_row).is_some_and(is_as_good) {
                    return false;
                }
            }
            next = Some(turn);
        }
        true
    }
}

/// Does a part of the work, and adds how long it took if that is asked for.
fn timed<T>(times: &mut Option<[Duration; 5]>, part: usize, work: impl FnOnce() -> T) -> T {
    let Some(times) = times else { return work() };
    let begun = Instant::now();
    let made = work();
    times[part] += begun.elapsed();
    made
}

fn main() {
    let (flags, files): (Vec<String>, Vec<String>) = std::env::args().skip(1).partition(|word| word.starts_with("--"));
    let is_asked = |flag: &str| flags.iter().any(|word| word == flag);
    let airport = Airport::read(&read_to_string(&files[0]).expect("the airport"));
    let commands = read_to_string(&files[1]).expect("the commands");
    let mut transcript = files.get(2).map(|file| File::create(file).expect("the transcript"));
    let windows = vec![vec![Window { from: 0, until: airport.horizon }]; airport.conflicts.len()];
    let mut router = Router { windows: windows.clone(), ..Router::default() };
    let mut checker = Checker { windows, ..Checker::default() };
    let mut times = is_asked("--parts").then_some([Duration::ZERO; 5]);
    let (mut text, mut block) = (Vec::new(), Block::default());
    let (mut count, mut routes, mut seconds, mut rows) = (0, 0, 0, 0);
    for line in commands.lines() {
        let request = Request::read(line, &airport);
        let find = if request.departs { Router::find::<true> } else { Router::find::<false> };
        let check = if request.departs { Checker::check::<true> } else { Checker::check::<false> };
        timed(&mut times, 0, || find(&mut router, &airport, &request));
        timed(&mut times, 1, || router.answer.print(&airport, &mut text));
        if let Some(file) = &mut transcript {
            file.write_all(&text).expect("the transcript");
        }
        timed(&mut times, 2, || block.read(&airport, &text)).expect("a block");
        if is_asked("--corrupt") && !block.rows.is_empty() {
            let spoiled = request.at as usize % block.rows.len();
            let value = block.rows[spoiled].value;
            block.rows[spoiled].value = if request.departs { value - 1 } else { value + 1 };
            check(&mut checker, &airport, &request, &block).expect_err("a spoiled block fails");
            block.rows[spoiled].value = value;
        }
        timed(&mut times, 3, || check(&mut checker, &airport, &request, &block)).expect("a block that passes");
        timed(&mut times, 4, || {
            put_in_force(&mut router.windows, &airport, &router.answer.steps);
            put_in_force(&mut checker.windows, &airport, &block.steps);
        });
        count += 1;
        rows += block.rows.len();
        if let (Some(first), Some(last)) = (block.steps.first(), block.steps.last()) {
            routes += 1;
            seconds += last.leave - first.enter;
        }
    }
    if let Some(file) = &mut transcript {
        writeln!(file, "done {count}").expect("the transcript");
    }
    println!("nodes {}\nsegments {}\ncommands {count}", airport.nodes.len(), airport.conflicts.len());
    println!("routes {routes}\nno-route {}\nseconds {seconds}", count - routes);
    for (name, time) in ["search", "print", "read", "check", "put in force"].iter().zip(times.iter().flatten()) {
        eprintln!("{name}: {:.2} s, {:.0} ns a row", time.as_secs_f64(), time.as_nanos() as f64 / rows as f64);
    }
}
