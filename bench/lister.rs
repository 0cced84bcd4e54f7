//! The lister of document 01, with items 1 and 3 of document 02, in plain Rust: the yardstick for the project's own lister, written from the papers alone.
//!
//! It reads a network file on standard input and prints the plans in order, or the refusal. Nothing here is proved.
//! Build: `rustc -O bench/lister.rs`. It uses only the standard library.
//!
//! A gate that is not yet decided passes both ways. If every wet basin then reaches every other, hanging one more gate
//! from A to B keeps it so exactly if B still reaches A without it: one search decides a gate. The first plan takes
//! the gates in order, each as drawn if that works and else turned; the next plan frees gates from the last one
//! backwards until one that was as drawn can be turned, and decides those after it afresh.

use std::fs::File;
use std::io::{self, BufWriter, Read, Write};
use std::os::fd::AsFd;

const MAX_BASINS: u16 = 256;
const MAX_REACHES: usize = 1024;
const MAX_INPUT: u64 = 8000;
const MAX_PLANS: usize = 1000;

/// Refusals, by document 01's number.
type Refusal = u8;
const BASIN_COUNT: Refusal = 1;
const OVER_FULL: Refusal = 2;
const STRAY_END: Refusal = 3;
const TORN: Refusal = 4;
const UNKNOWN_MARK: Refusal = 5;
const OVERRUN: Refusal = 6;
const SHUT_IN: Refusal = 9;
const LONE_REACH: Refusal = 10;

// The kinds of record that a network file may hold.
const HEAD: u8 = 1;
const GATED: u8 = 2;
const FLAP: u8 = 3;
const TWO_WAY: u8 = 4;
const SHUT: u8 = 5;
const END: u8 = 9;

struct Reach {
    kind: u8,
    a: u16,
    b: u16,
}

struct Network {
    basins: usize,
    /// Those in service: no other passes water or has a character on a line.
    reaches: Vec<Reach>,
}

/// Takes the next record off the file: its kind first (5), then the whole body (4).
fn record<'a>(file: &mut &'a [u8], allowed: &[u8]) -> Result<(u8, &'a [u8]), Refusal> {
    let (&kind, rest) = file.split_first().ok_or(TORN)?;
    if !allowed.contains(&kind) {
        return Err(UNKNOWN_MARK);
    }
    let length = match kind {
        HEAD => 2,
        SHUT => 5,
        END => 0,
        _ => 4,
    };
    if rest.len() < length {
        return Err(TORN);
    }
    let (body, rest) = rest.split_at(length);
    *file = rest;
    Ok((kind, body))
}

fn two_bytes(body: &[u8], at: usize) -> u16 {
    u16::from_le_bytes([body[at], body[at + 1]])
}

fn read_network(mut file: &[u8]) -> Result<Network, Refusal> {
    let (_, head) = record(&mut file, &[HEAD])?;
    let basins = two_bytes(head, 0);
    if basins == 0 || basins > MAX_BASINS {
        return Err(BASIN_COUNT);
    }
    let mut reaches = Vec::with_capacity(MAX_REACHES);
    let mut count = 0;
    loop {
        let (kind, body) = record(&mut file, &[GATED, FLAP, TWO_WAY, SHUT, END])?;
        if kind == END {
            break;
        }
        if kind == SHUT && ![GATED, FLAP, TWO_WAY].contains(&body[4]) {
            return Err(UNKNOWN_MARK);
        }
        if count == MAX_REACHES {
            return Err(OVER_FULL);
        }
        let (a, b) = (two_bytes(body, 0), two_bytes(body, 2));
        if a >= basins || b >= basins {
            return Err(STRAY_END);
        }
        count += 1;
        if kind != SHUT {
            reaches.push(Reach { kind, a, b });
        }
    }
    if !file.is_empty() {
        return Err(OVERRUN);
    }
    Ok(Network { basins: basins as usize, reaches })
}

/// One end of a reach, at the basin whose list it stands in. Reach i has number 2i at its end A and 2i + 1 at its end B.
#[derive(Clone, Copy, Default)]
struct HalfEdge {
    number: u16,
    to: u16,
}

/// The network as adjacency lists, and which half-edges may be taken at present.
struct Graph {
    /// The list of basin v is half_edges[starts[v]..starts[v + 1]].
    starts: Vec<u32>,
    half_edges: Vec<HalfEdge>,
    /// By number of half-edge.
    open: Vec<bool>,
    /// By basin: the last search that came to it.
    seen: Vec<u32>,
    searches: u32,
    queue: Vec<u16>,
}

impl Graph {
    /// Every gate free.
    fn new(network: &Network) -> Graph {
        let basins = network.basins;
        let mut starts = vec![0u32; basins + 1];
        for reach in &network.reaches {
            starts[reach.a as usize + 1] += 1;
            starts[reach.b as usize + 1] += 1;
        }
        for v in 0..basins {
            starts[v + 1] += starts[v];
        }
        let mut put = starts.clone();
        let mut half_edges = vec![HalfEdge::default(); 2 * network.reaches.len()];
        let mut open = Vec::with_capacity(half_edges.len());
        for (i, reach) in network.reaches.iter().enumerate() {
            for (number, from, to) in [(2 * i, reach.a, reach.b), (2 * i + 1, reach.b, reach.a)] {
                let place = &mut put[from as usize];
                half_edges[*place as usize] = HalfEdge { number: number as u16, to };
                *place += 1;
            }
            open.push(true);
            open.push(reach.kind != FLAP);
        }
        Graph { starts, half_edges, open, seen: vec![0; basins], searches: 0, queue: vec![0; basins] }
    }

    /// Breadth first from a basin until the goal is found. How many basins were found, and whether the goal was.
    /// With `against` 1 the reaches are taken against the way they pass, else 0.
    fn search(&mut self, from: u16, goal: Option<u16>, against: u16) -> (usize, bool) {
        if goal == Some(from) {
            return (1, true);
        }
        self.searches += 1;
        let now = self.searches;
        self.seen[from as usize] = now;
        self.queue[0] = from;
        let (mut taken, mut found) = (0, 1);
        while taken < found {
            let v = self.queue[taken] as usize;
            taken += 1;
            for half in &self.half_edges[self.starts[v] as usize..self.starts[v + 1] as usize] {
                let seen = &mut self.seen[half.to as usize];
                if *seen != now && self.open[(half.number ^ against) as usize] {
                    if goal == Some(half.to) {
                        return (found, true);
                    }
                    *seen = now;
                    self.queue[found] = half.to;
                    found += 1;
                }
            }
        }
        (found, false)
    }

    fn leads(&mut self, from: u16, to: u16) -> bool {
        self.search(from, Some(to), 0).1
    }

    /// Whether every wet basin reaches every other: one of them reaches all, and all reach it. A basin with an empty list is dry.
    fn strong(&mut self) -> bool {
        let wet = self.starts.windows(2).filter(|list| list[0] < list[1]).count();
        let from = self.half_edges.first().map_or(0, |half| half.to);
        wet == 0 || self.search(from, None, 0).0 == wet && self.search(from, None, 1).0 == wet
    }

    fn hang(&mut self, gate: &Gate, as_drawn: bool, turned: bool) {
        self.open[gate.at_a] = as_drawn;
        self.open[gate.at_a + 1] = turned;
    }
}

struct Gate {
    a: u16,
    b: u16,
    /// The number of its half-edge at A.
    at_a: usize,
}

/// A plan as its line of output, and the graph hung so.
struct Planner {
    graph: Graph,
    gates: Vec<Gate>,
    line: Vec<u8>,
}

impl Planner {
    /// The first plan, or 9 or 10.
    fn first(network: &Network) -> Result<Planner, Refusal> {
        let gates: Vec<Gate> = network
            .reaches
            .iter()
            .enumerate()
            .filter(|(_, reach)| reach.kind == GATED)
            .map(|(i, reach)| Gate { a: reach.a, b: reach.b, at_a: 2 * i })
            .collect();
        let mut graph = Graph::new(network);
        if !graph.strong() {
            return Err(SHUT_IN);
        }
        let mut line = vec![b'0'; gates.len()];
        for (gate, way) in gates.iter().zip(&mut line) {
            graph.hang(gate, false, false);
            if graph.leads(gate.b, gate.a) {
                graph.hang(gate, true, false);
            } else if graph.leads(gate.a, gate.b) {
                *way = b'1';
                graph.hang(gate, false, true);
            } else {
                return Err(LONE_REACH);
            }
        }
        line.extend_from_slice(if gates.is_empty() { b"-\n" } else { b"\n" });
        Ok(Planner { graph, gates, line })
    }

    /// Moves to the next plan; false if there is none.
    fn next(&mut self) -> bool {
        let Planner { graph, gates, line } = self;
        for i in (0..gates.len()).rev() {
            let gate = &gates[i];
            if line[i] == b'0' {
                graph.hang(gate, false, false);
                if graph.leads(gate.a, gate.b) {
                    graph.hang(gate, false, true);
                    line[i] = b'1';
                    // No reach is lone, so a gate that cannot hang as drawn can hang turned.
                    for (gate, way) in gates.iter().zip(line.iter_mut()).skip(i + 1) {
                        graph.hang(gate, false, false);
                        let as_drawn = graph.leads(gate.b, gate.a);
                        graph.hang(gate, as_drawn, !as_drawn);
                        *way = if as_drawn { b'0' } else { b'1' };
                    }
                    return true;
                }
            }
            graph.hang(gate, true, true);
        }
        false
    }
}

fn main() -> io::Result<()> {
    // Not through the buffer of io::stdin, which would take more than the 8,000 bytes off the input.
    let input = File::from(io::stdin().as_fd().try_clone_to_owned()?);
    let mut file = Vec::with_capacity(MAX_INPUT as usize);
    input.take(MAX_INPUT).read_to_end(&mut file)?;
    let mut out = BufWriter::with_capacity(1 << 16, io::stdout().lock());
    match read_network(&file).and_then(|network| Planner::first(&network)) {
        Err(number) => writeln!(out, "refused {number}")?,
        Ok(mut planner) => {
            out.write_all(&planner.line)?;
            let mut printed = 1;
            let mut later = planner.next();
            while later && printed < MAX_PLANS {
                out.write_all(&planner.line)?;
                printed += 1;
                later = planner.next();
            }
            out.write_all(if later { b"more\n" } else { b"end\n" })?;
        }
    }
    out.flush()
}
