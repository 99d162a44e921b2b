//! Checks or optimizes a ProDOS volume in ProDOS order as a plain program would, with the same plan, certificate and image: the
//! measure for whole commands. `plain check IMAGE` and `plain optimize IMAGE OUT`.

use std::fmt::Write as _;
use std::io::Write as _;
use std::{env, error::Error, fs, io};

const BLOCK: usize = 512;
const ENTRY: usize = 0x27;
const ENTRIES: usize = 13;

type Outcome<T> = Result<T, Box<dyn Error>>;

/// A pointer to a block: the block of a directory or the part that holds it, and where in it.
#[derive(Clone, Copy)]
struct Pointer {
    holder: Holder,
    low: usize,
    high: usize,
}

#[derive(Clone, Copy)]
enum Holder {
    Directory(usize),
    Part(usize),
}

struct Part {
    place: usize,
    pointer: Pointer,
}

struct Volume {
    bytes: Vec<u8>,
    blocks: usize,
    bitmap: usize,
    parts: Vec<Part>,
    taken: Vec<bool>,
    system: Vec<bool>,
    files: usize,
}

impl Volume {
    fn open(bytes: Vec<u8>) -> Outcome<Self> {
        let word = |at: usize| usize::from(bytes[at]) | usize::from(bytes[at + 1]) << 8;
        let (bitmap, blocks) = (word(2 * BLOCK + 4 + 0x23), word(2 * BLOCK + 4 + 0x25));
        if bytes.len() != blocks * BLOCK {
            return Err("the image isn't as long as its volume".into());
        }
        let mut system = vec![false; blocks];
        system[..6].fill(true);
        system[bitmap..bitmap + blocks.div_ceil(8 * BLOCK)].fill(true);
        let mut volume = Self {
            bytes,
            blocks,
            bitmap,
            parts: Vec::new(),
            taken: system.clone(),
            system,
            files: 0,
        };
        volume.walk()?;
        Ok(volume)
    }

    fn byte(&self, place: usize, at: usize) -> usize {
        usize::from(self.bytes[place * BLOCK + at])
    }

    fn word(&self, place: usize, low: usize, high: usize) -> usize {
        self.byte(place, low) | self.byte(place, high) << 8
    }

    fn is_marked_free(&self, place: usize) -> bool {
        self.byte(self.bitmap, place / 8) >> (7 - place % 8) & 1 == 1
    }

    fn holder_place(&self, holder: Holder) -> usize {
        match holder {
            Holder::Directory(place) => place,
            Holder::Part(part) => self.parts[part].place,
        }
    }

    fn take(&mut self, place: usize) -> Outcome<()> {
        if place == 0 || place >= self.blocks {
            return Err(format!("block {place} is out of range").into());
        }
        if self.taken[place] || self.is_marked_free(place) {
            return Err(format!("block {place} is taken twice or marked free").into());
        }
        self.taken[place] = true;
        Ok(())
    }

    /// Takes the block that a pointer tells as a part.
    fn part(&mut self, pointer: Pointer) -> Outcome<usize> {
        let place = self.word(self.holder_place(pointer.holder), pointer.low, pointer.high);
        self.take(place)?;
        self.parts.push(Part { place, pointer });
        Ok(self.parts.len() - 1)
    }

    /// Walks the directories with a list of those to come, by their key blocks.
    fn walk(&mut self) -> Outcome<()> {
        let mut coming = Vec::new();
        for block in 2..6 {
            self.entries(block, &mut coming)?;
        }
        while let Some(key) = coming.pop() {
            let mut block = key;
            while block != 0 {
                self.take(block)?;
                self.system[block] = true;
                self.entries(block, &mut coming)?;
                block = self.word(block, 2, 3);
            }
        }
        Ok(())
    }

    /// Takes what the entries of a directory's block point to.
    fn entries(&mut self, block: usize, coming: &mut Vec<usize>) -> Outcome<()> {
        for at in (0..ENTRIES).map(|entry| 4 + entry * ENTRY) {
            let first = Pointer {
                holder: Holder::Directory(block),
                low: at + 0x11,
                high: at + 0x12,
            };
            match self.byte(block, at) >> 4 {
                0 | 0xe | 0xf => {}
                1 => {
                    self.files += 1;
                    self.part(first)?;
                }
                2 => {
                    self.files += 1;
                    self.indexed(first)?;
                }
                0xd => coming.push(self.word(block, first.low, first.high)),
                _ => return Err("the volumes measured hold no such file".into()),
            }
        }
        Ok(())
    }

    /// Takes an index block and what it points to.
    fn indexed(&mut self, first: Pointer) -> Outcome<()> {
        let index = self.part(first)?;
        for low in 0..256 {
            let pointer = Pointer {
                holder: Holder::Part(index),
                low,
                high: low + 256,
            };
            if self.word(self.parts[index].place, low, low + 256) != 0 {
                self.part(pointer)?;
            }
        }
        Ok(())
    }

    fn mark(&mut self, place: usize, free: bool) {
        let (at, bit) = (self.bitmap * BLOCK + place / 8, 0x80 >> (place % 8));
        if free {
            self.bytes[at] |= bit;
        } else {
            self.bytes[at] &= !bit;
        }
    }

    /// Copies a part's block to a free place, points to it there, and marks both places.
    fn move_part(&mut self, part: usize, to: usize) {
        let from = self.parts[part].place;
        self.mark(to, false);
        self.bytes.copy_within(from * BLOCK..(from + 1) * BLOCK, to * BLOCK);
        let pointer = self.parts[part].pointer;
        let at = self.holder_place(pointer.holder) * BLOCK;
        self.bytes[at + pointer.low] = to as u8;
        self.bytes[at + pointer.high] = (to >> 8) as u8;
        self.parts[part].place = to;
        self.mark(from, true);
    }
}

/// A part and the number of the place to which it goes.
#[derive(Clone, Copy)]
struct Move {
    part: usize,
    to: usize,
}

/// The numbers of the places at which the parts stand, and what is to be done.
struct Plan {
    at: Vec<usize>,
    places: usize,
    misplaced: Vec<usize>,
    rings: Vec<Vec<usize>>,
    moves: Vec<Move>,
}

/// Fills the hole, then the hole that this leaves, until the hole is no part's target; tells that one.
fn fill(now: &mut [usize], moves: &mut Vec<Move>, mut hole: usize) -> usize {
    while hole < now.len() {
        moves.push(Move { part: hole, to: hole });
        hole = std::mem::replace(&mut now[hole], hole);
    }
    hole
}

/// The part, and those in whose places it and the next ones stand, back to it.
fn ring(now: &[usize], part: usize) -> Vec<usize> {
    let mut ring = vec![part];
    let mut next = now[part];
    while next != part {
        ring.push(next);
        next = now[next];
    }
    ring
}

impl Plan {
    fn new(at: Vec<usize>, places: usize) -> Outcome<Self> {
        let parts = at.len();
        let misplaced: Vec<usize> = (0..parts).filter(|part| at[*part] != *part).collect();
        let mut free = vec![true; places];
        for place in &at {
            free[*place] = false;
        }
        let (mut now, mut moves, mut rings) = (at.clone(), Vec::new(), Vec::new());
        let mut to = parts;
        for hole in (0..parts).filter(|place| free[*place]) {
            to = fill(&mut now, &mut moves, hole);
        }
        for part in 0..parts {
            if now[part] == part {
                continue;
            }
            if to == places {
                return Err("no place is free".into());
            }
            rings.push(ring(&now, part));
            moves.push(Move { part, to });
            let mut hole = std::mem::replace(&mut now[part], to);
            while hole != to {
                moves.push(Move { part: hole, to: hole });
                hole = std::mem::replace(&mut now[hole], hole);
            }
        }
        Ok(Self {
            at,
            places,
            misplaced,
            rings,
            moves,
        })
    }

    /// What was done, and the certificate.
    fn report(&self) -> Result<String, std::fmt::Error> {
        let (moves, rings, misplaced) = (self.moves.len(), self.rings.len(), self.misplaced.len());
        let mut text = String::new();
        writeln!(text, "moves {moves} rings {rings} misplaced {misplaced}")?;
        writeln!(text, "A2CERT 1\nPARTS {} PLACES {}", self.at.len(), self.places)?;
        for place in &self.at {
            writeln!(text, "AT {place}")?;
        }
        for part in &self.misplaced {
            writeln!(text, "OFF {part}")?;
        }
        for ring in &self.rings {
            text.push_str("RING");
            for part in ring {
                write!(text, " {part}")?;
            }
            text.push('\n');
        }
        writeln!(text, "BOUND {}", misplaced + rings)?;
        for step in &self.moves {
            writeln!(text, "MOVE {} {}", step.part, step.to)?;
        }
        text.push_str("END\n");
        Ok(text)
    }
}

/// Brings the parts to the first available places, in the order in which they were met, by the fewest moves.
fn optimize(volume: &mut Volume) -> Outcome<Plan> {
    let available: Vec<usize> = (0..volume.blocks).filter(|place| !volume.system[*place]).collect();
    let mut number = vec![0; volume.blocks];
    for (index, place) in available.iter().enumerate() {
        number[*place] = index;
    }
    let at = volume.parts.iter().map(|part| number[part.place]).collect();
    let plan = Plan::new(at, available.len())?;
    for step in &plan.moves {
        volume.move_part(step.part, available[step.to]);
    }
    Ok(plan)
}

fn main() -> Outcome<()> {
    let words: Vec<String> = env::args().skip(1).collect();
    match words.iter().map(String::as_str).collect::<Vec<_>>()[..] {
        ["check", image] => {
            let volume = Volume::open(fs::read(image)?)?;
            println!("files {} parts {}", volume.files, volume.parts.len());
        }
        ["optimize", image, out] => {
            let mut volume = Volume::open(fs::read(image)?)?;
            let plan = optimize(&mut volume)?;
            io::stdout().write_all(plan.report()?.as_bytes())?;
            fs::write(out, &volume.bytes)?;
        }
        _ => return Err("plain check IMAGE | plain optimize IMAGE OUT".into()),
    }
    Ok(())
}
