//! The same algorithms in plain Rust: a layout with a table from place to part, the planner, the certificate's text, its
//! reader and its verifier. Only for measuring beside the proved ones.
use std::fmt::Write;
use std::time::{Duration, Instant};

const SIZES: [u32; 3] = [6_500, 65_000, 650_000];
const RUNS: u32 = 10;

#[derive(Clone, Copy)]
struct Move {
    part: u32,
    to: u32,
}

#[derive(Clone)]
struct Layout {
    at: Vec<u32>,
    part_at: Vec<Option<u32>>,
}

impl Layout {
    fn new(at: Vec<u32>, places: u32) -> Option<Layout> {
        let mut part_at = vec![None; places as usize];
        for (k, place) in at.iter().enumerate() {
            let slot = part_at.get_mut(*place as usize)?;
            if slot.is_some() {
                return None;
            }
            *slot = Some(k as u32);
        }
        Some(Layout { at, part_at })
    }

    fn apply(&mut self, step: Move) -> bool {
        if (step.part as usize) >= self.at.len() || (step.to as usize) >= self.part_at.len() || self.part_at[step.to as usize].is_some() {
            return false;
        }
        let left = self.at[step.part as usize];
        self.part_at[left as usize] = None;
        self.part_at[step.to as usize] = Some(step.part);
        self.at[step.part as usize] = step.to;
        true
    }
}

struct Plan {
    moves: Vec<Move>,
    misplaced: Vec<u32>,
    rings: Vec<Vec<u32>>,
}

fn make(now: &mut Layout, moves: &mut Vec<Move>, part: u32, to: u32) -> u32 {
    let left = now.at[part as usize];
    now.apply(Move { part, to });
    moves.push(Move { part, to });
    left
}

fn plan(layout: &Layout) -> Option<Plan> {
    let parts = layout.at.len() as u32;
    let misplaced: Vec<u32> = (0..parts).filter(|k| layout.at[*k as usize] != *k).collect();
    if !misplaced.is_empty() && layout.at.len() == layout.part_at.len() {
        return None;
    }
    let mut now = layout.clone();
    let mut moves = Vec::with_capacity(misplaced.len() + misplaced.len() / 2);
    let mut spare = parts;
    for hole in 0..parts {
        if now.part_at[hole as usize].is_none() {
            let mut place = hole;
            while place < parts {
                place = make(&mut now, &mut moves, place, place);
            }
            spare = place;
        }
    }
    let mut rings = Vec::new();
    for k in 0..parts {
        if now.at[k as usize] == k {
            continue;
        }
        let mut ring = vec![k];
        let mut next = now.at[k as usize];
        while next != k {
            ring.push(next);
            next = now.at[next as usize];
        }
        let mut place = make(&mut now, &mut moves, k, spare);
        while place != k {
            place = make(&mut now, &mut moves, place, place);
        }
        make(&mut now, &mut moves, k, k);
        rings.push(ring);
    }
    Some(Plan { moves, misplaced, rings })
}

fn print(layout: &Layout, plan: &Plan) -> String {
    let mut text = String::new();
    writeln!(text, "A2CERT 1\nPARTS {} PLACES {}", layout.at.len(), layout.part_at.len()).unwrap();
    for place in &layout.at {
        writeln!(text, "AT {place}").unwrap();
    }
    for part in &plan.misplaced {
        writeln!(text, "OFF {part}").unwrap();
    }
    for ring in &plan.rings {
        text.push_str("RING");
        for part in ring {
            write!(text, " {part}").unwrap();
        }
        text.push('\n');
    }
    writeln!(text, "BOUND {}", plan.misplaced.len() + plan.rings.len()).unwrap();
    for step in &plan.moves {
        writeln!(text, "MOVE {} {}", step.part, step.to).unwrap();
    }
    text.push_str("END\n");
    text
}

struct Cert {
    at: Vec<u32>,
    places: u32,
    off: Vec<u32>,
    rings: Vec<Vec<u32>>,
    bound: u32,
    moves: Vec<Move>,
}

fn number(word: &str) -> Option<u32> {
    if word.len() > 1 && word.starts_with('0') || !word.bytes().all(|byte| byte.is_ascii_digit()) {
        return None;
    }
    word.parse().ok()
}

fn read(text: &str) -> Option<Cert> {
    let mut lines = text.strip_suffix('\n')?.split('\n').peekable();
    if lines.next()? != "A2CERT 1" {
        return None;
    }
    let mut sizes = lines.next()?.strip_prefix("PARTS ")?.split(" PLACES ");
    let (parts, places) = (number(sizes.next()?)?, number(sizes.next()?)?);
    let mut at = Vec::new();
    for _ in 0..parts {
        at.push(number(lines.next()?.strip_prefix("AT ")?)?);
    }
    let mut off = Vec::new();
    while let Some(word) = lines.peek()?.strip_prefix("OFF ") {
        off.push(number(word)?);
        lines.next();
    }
    let mut rings = Vec::new();
    while let Some(words) = lines.peek()?.strip_prefix("RING ") {
        rings.push(words.split(' ').map(number).collect::<Option<Vec<u32>>>()?);
        lines.next();
    }
    let bound = number(lines.next()?.strip_prefix("BOUND ")?)?;
    let mut moves = Vec::new();
    while let Some(words) = lines.peek()?.strip_prefix("MOVE ") {
        let (part, to) = words.split_once(' ')?;
        moves.push(Move { part: number(part)?, to: number(to)? });
        lines.next();
    }
    (lines.next()? == "END" && lines.next().is_none()).then_some(Cert { at, places, off, rings, bound, moves })
}

struct Board {
    at: Vec<u32>,
    taken: Vec<bool>,
}

impl Board {
    fn new(layout: &Layout) -> Board {
        let mut taken = vec![false; layout.part_at.len()];
        for place in &layout.at {
            taken[*place as usize] = true;
        }
        Board { at: layout.at.clone(), taken }
    }

    fn make(&mut self, step: Move) -> bool {
        let to = step.to as usize;
        if (step.part as usize) >= self.at.len() || to >= self.taken.len() || self.taken[to] {
            return false;
        }
        let left = self.at[step.part as usize];
        self.taken[left as usize] = false;
        self.taken[to] = true;
        self.at[step.part as usize] = step.to;
        true
    }
}

fn meets_each_once(seen: &mut [bool], parts: &[u32]) -> bool {
    parts.iter().all(|part| seen.get_mut(*part as usize).is_some_and(|seen| !std::mem::replace(seen, true)))
}

fn is_ring(at: &[u32], ring: &[u32]) -> bool {
    ring.len() >= 2 && (0..ring.len()).all(|i| at[ring[i] as usize] == *ring.get(i + 1).unwrap_or(&ring[0]))
}

fn verify(layout: &Layout, cert: &Cert) -> bool {
    let at = &layout.at;
    if cert.at != *at || cert.places as usize != layout.part_at.len() {
        return false;
    }
    if cert.off.iter().any(|k| at.get(*k as usize).is_none_or(|place| place == k)) {
        return false;
    }
    let mut seen = vec![false; at.len()];
    if !meets_each_once(&mut seen, &cert.off) {
        return false;
    }
    seen.fill(false);
    if !cert.rings.iter().all(|ring| meets_each_once(&mut seen, ring) && is_ring(at, ring)) {
        return false;
    }
    drop(seen);
    let mut now = Board::new(layout);
    if !cert.moves.iter().all(|step| now.make(*step)) {
        return false;
    }
    now.at.iter().enumerate().all(|(k, place)| *place as usize == k)
        && cert.bound as usize == cert.off.len() + cert.rings.len()
        && cert.bound as usize == cert.moves.len()
}

fn timed<T>(best: &mut Duration, work: impl FnOnce() -> T) -> T {
    let start = Instant::now();
    let value = work();
    *best = (*best).min(start.elapsed());
    value
}

fn main() {
    for parts in SIZES {
        let mut best = [Duration::MAX; 4];
        for _ in 0..RUNS {
            let layout = Layout::new((0..parts).rev().collect(), parts + 1).unwrap();
            let [planned, printed, taken, verified] = &mut best;
            let plan = timed(planned, || plan(&layout)).unwrap();
            let text = timed(printed, || print(&layout, &plan));
            let cert = timed(taken, || read(&text)).unwrap();
            assert!(timed(verified, || verify(&layout, &cert)));
        }
        for (name, time) in ["plan", "print", "read", "verify"].iter().zip(best) {
            println!("{name} {parts} {}", time.as_nanos());
        }
    }
}
