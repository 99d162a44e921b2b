//! Edits a volume of DOS 3.3 in DOS order or of ProDOS in ProDOS order as a plain program would, with the same image: the measure
//! for the commands that edit. `plain lock|unlock|delete IMAGE NAME OUT`, `plain rename IMAGE NAME NEW OUT` and
//! `plain save IMAGE NAME FROM OUT`.

use std::io::Write as _;
use std::{env, error::Error, fs, iter};

type Outcome<T> = Result<T, Box<dyn Error>>;

/// The bytes of a disk's image.
const DISK: usize = 143_360;

/// A sound volume, whose files can be edited.
trait Volume {
    fn lock(&mut self, path: &str, locked: bool) -> Outcome<()>;
    fn rename(&mut self, path: &str, new: &str) -> Outcome<()>;
    fn delete(&mut self, path: &str) -> Outcome<()>;
    fn save(&mut self, path: &str, file: &[u8]) -> Outcome<()>;
    fn image(&self) -> &[u8];
}

/// Takes a place at which nothing stands yet.
fn take(taken: &mut [bool], place: usize) -> Outcome<()> {
    match taken.get_mut(place) {
        None => Err(format!("place {place} is out of range").into()),
        Some(true) => Err(format!("place {place} is taken twice").into()),
        Some(taken) => {
            *taken = true;
            Ok(())
        }
    }
}

/// Puts bytes into a unit, and zeros behind them.
fn put(unit: &mut [u8], bytes: &[u8]) {
    let (front, rest) = unit.split_at_mut(bytes.len());
    front.copy_from_slice(bytes);
    rest.fill(0);
}

fn word(number: usize) -> [u8; 2] {
    [number as u8, (number >> 8) as u8]
}

const SECTOR: usize = 256;
const SECTORS: usize = 560;
const VTOC: usize = 272;
const VTOC_TRACK: usize = 17;
const PAIRS: usize = 122;
const SLOT: usize = 35;
const NAME: usize = 30;
const LOCK: u8 = 0x80;
const DELETED: u8 = 0xff;

/// A volume of DOS 3.3: its image, and the sectors of its catalog.
struct Dos {
    image: Vec<u8>,
    catalog: Vec<usize>,
}

/// A name as it is stored.
fn dos_name(name: &str) -> Option<[u8; NAME]> {
    let mut stored = [b' ' | 0x80; NAME];
    for (stored, byte) in stored.get_mut(..name.len())?.iter_mut().zip(name.bytes()) {
        *stored = byte | 0x80;
    }
    Some(stored)
}

/// A name that a file may get, as it is stored.
fn new_dos_name(name: &str) -> Outcome<[u8; NAME]> {
    let good = name.starts_with(|first: char| first.is_ascii_uppercase())
        && name.bytes().all(|byte| matches!(byte, b' '..=b'~') && byte != b',')
        && !name.ends_with(' ');
    dos_name(name).filter(|_| good).ok_or_else(|| format!("no file may get the name {name}").into())
}

fn pair(place: usize) -> [u8; 2] {
    [(place / 16) as u8, (place % 16) as u8]
}

impl Dos {
    /// Whether an image is a disk's, and has the geometry in a VTOC.
    fn is_on(image: &[u8]) -> bool {
        image.len() == DISK && image[VTOC * SECTOR + 0x34..][..4] == [35, 16, 0, 1]
    }

    fn open(image: Vec<u8>) -> Outcome<Self> {
        let mut volume = Self {
            image,
            catalog: Vec::new(),
        };
        volume.walk()?;
        volume.check()?;
        Ok(volume)
    }

    fn sector(&mut self, place: usize) -> &mut [u8] {
        &mut self.image[place * SECTOR..][..SECTOR]
    }

    /// The place that a pair of track and sector names, where it names one.
    fn place(&self, at: usize) -> Outcome<Option<usize>> {
        match (self.image[at], self.image[at + 1]) {
            (0, _) => Ok(None),
            (track @ ..35, sector @ ..16) => Ok(Some(usize::from(track) * 16 + usize::from(sector))),
            (track, sector) => Err(format!("{track}/{sector} is out of range").into()),
        }
    }

    /// Follows the catalog, of track 17 behind the VTOC.
    fn walk(&mut self) -> Outcome<()> {
        let mut link = self.place(VTOC * SECTOR + 1)?;
        while let Some(place) = link {
            if place / 16 != VTOC_TRACK || place == VTOC || self.catalog.contains(&place) {
                return Err("the catalog is broken".into());
            }
            self.catalog.push(place);
            link = self.place(place * SECTOR + 1)?;
        }
        Ok(())
    }

    /// Where the slots of the catalog begin.
    fn slots(&self) -> impl Iterator<Item = usize> {
        self.catalog.iter().flat_map(|place| (0..7).map(move |slot| place * SECTOR + 0x0b + slot * SLOT))
    }

    fn is_empty(&self, slot: usize) -> bool {
        matches!(self.image[slot], 0 | DELETED)
    }

    /// The slot of the first file that has a stored name.
    fn slot_of(&self, name: &[u8; NAME]) -> Option<usize> {
        self.slots().find(|slot| !self.is_empty(*slot) && self.image[slot + 3..][..NAME] == *name)
    }

    fn find(&self, name: &str) -> Outcome<usize> {
        dos_name(name).and_then(|name| self.slot_of(&name)).ok_or_else(|| format!("no file has the name {name}").into())
    }

    /// The lists and the body of a file.
    fn parts(&self, slot: usize) -> Outcome<Vec<usize>> {
        let mut parts = Vec::new();
        let mut link = self.place(slot)?;
        while let Some(list) = link {
            if parts.len() > SECTORS {
                return Err("the lists of a file are a ring".into());
            }
            parts.push(list);
            for number in 0..PAIRS {
                parts.extend(self.place(list * SECTOR + 0x0c + 2 * number)?);
            }
            link = self.place(list * SECTOR + 1)?;
        }
        Ok(parts)
    }

    fn is_of_system(place: usize) -> bool {
        matches!(place / 16, 0..=2 | VTOC_TRACK)
    }

    /// Whether each part stands alone at an available place that is marked used.
    fn check(&self) -> Outcome<()> {
        let mut taken: Vec<bool> = (0..SECTORS).map(Self::is_of_system).collect();
        for slot in self.slots().filter(|slot| !self.is_empty(*slot)) {
            for part in self.parts(slot)? {
                take(&mut taken, part)?;
                if self.is_marked_free(part) {
                    return Err(format!("sector {part} is marked free").into());
                }
            }
        }
        Ok(())
    }

    /// The byte and the bit of a sector in the map.
    fn bit(place: usize) -> (usize, u8) {
        let half = usize::from(place % 16 < 8);
        (VTOC * SECTOR + 0x38 + place / 16 * 4 + half, 1 << (place % 8))
    }

    fn is_marked_free(&self, place: usize) -> bool {
        let (at, bit) = Self::bit(place);
        self.image[at] & bit != 0
    }

    /// The first free sectors: tracks upward, in a track downward.
    fn free_places(&self, count: usize) -> Outcome<Vec<usize>> {
        let places = (0..SECTORS).map(|number| number ^ 15);
        let free = places.filter(|place| !Self::is_of_system(*place) && self.is_marked_free(*place));
        let free: Vec<usize> = free.take(count).collect();
        if free.len() < count {
            return Err("the volume is full".into());
        }
        Ok(free)
    }

    /// Writes a list, the first of its places, for the body behind it.
    fn put_list(&mut self, number: usize, places: &[usize], next: Option<usize>) {
        let sector = self.sector(places[0]);
        sector.fill(0);
        sector[1..3].copy_from_slice(&next.map_or([0; 2], pair));
        sector[5..7].copy_from_slice(&word(PAIRS * number));
        for (at, place) in places[1..].iter().enumerate() {
            sector[0x0c + 2 * at..][..2].copy_from_slice(&pair(*place));
        }
    }

    /// A name that a file may get and none has, as it is stored.
    fn fresh_name(&self, name: &str) -> Outcome<[u8; NAME]> {
        let stored = new_dos_name(name)?;
        match self.slot_of(&stored) {
            None => Ok(stored),
            Some(_) => Err(format!("a file has the name {name}").into()),
        }
    }

    fn is_locked(&self, slot: usize) -> bool {
        self.image[slot + 2] & LOCK != 0
    }
}

impl Volume for Dos {
    fn lock(&mut self, path: &str, locked: bool) -> Outcome<()> {
        let slot = self.find(path)?;
        if locked {
            self.image[slot + 2] |= LOCK;
        } else {
            self.image[slot + 2] &= !LOCK;
        }
        Ok(())
    }

    fn rename(&mut self, path: &str, new: &str) -> Outcome<()> {
        let slot = self.find(path)?;
        let name = self.fresh_name(new)?;
        if self.is_locked(slot) {
            return Err("the file is locked".into());
        }
        self.image[slot + 3..][..NAME].copy_from_slice(&name);
        Ok(())
    }

    fn delete(&mut self, path: &str) -> Outcome<()> {
        let slot = self.find(path)?;
        if self.is_locked(slot) {
            return Err("the file is locked".into());
        }
        for part in self.parts(slot)? {
            let (at, bit) = Self::bit(part);
            self.image[at] |= bit;
        }
        self.image[slot + 0x20] = self.image[slot];
        self.image[slot] = DELETED;
        Ok(())
    }

    fn save(&mut self, path: &str, file: &[u8]) -> Outcome<()> {
        let name = self.fresh_name(path)?;
        let units = file.len().div_ceil(SECTOR);
        if units > SECTORS {
            return Err("the file is too long".into());
        }
        let slot = self.slots().find(|slot| self.is_empty(*slot)).ok_or("the catalog is full")?;
        let places = self.free_places(units + units.div_ceil(PAIRS).max(1))?;
        let mut chunks = file.chunks(SECTOR);
        for (number, own) in places.chunks(1 + PAIRS).enumerate() {
            let next = places.get((number + 1) * (1 + PAIRS)).copied();
            self.put_list(number, own, next);
            for (place, bytes) in own[1..].iter().zip(&mut chunks) {
                put(self.sector(*place), bytes);
            }
        }
        for place in &places {
            let (at, bit) = Self::bit(*place);
            self.image[at] &= !bit;
        }
        let entry = &mut self.image[slot..][..SLOT];
        entry[..2].copy_from_slice(&pair(places[0]));
        entry[2] = 0;
        entry[3..3 + NAME].copy_from_slice(&name);
        entry[3 + NAME..].copy_from_slice(&word(places.len()));
        Ok(())
    }

    fn image(&self) -> &[u8] {
        &self.image
    }
}

const BLOCK: usize = 512;
const ENTRY: usize = 0x27;
const ENTRIES: usize = 13;
const ROOT: usize = 2;
const POINTERS: usize = 256;
const INDEXES: usize = 128;
const LONGEST: usize = 0xff_ffff;
const LONGEST_NAME: usize = 15;
const FILE_COUNT: usize = 0x25;
const CAN_DESTROY: u8 = 0x80;
const CAN_RENAME: u8 = 0x40;

/// A volume of ProDOS: its image, its blocks, the first block of its map, and which blocks are the system's.
struct Prodos {
    image: Vec<u8>,
    blocks: usize,
    bitmap: usize,
    system: Vec<bool>,
}

/// A name that an entry may get.
fn new_pro_name(name: &str) -> Outcome<&str> {
    let good = name.starts_with(|first: char| first.is_ascii_alphabetic())
        && name.bytes().all(|byte| byte.is_ascii_alphanumeric() || byte == b'.')
        && name.len() <= LONGEST_NAME;
    if good { Ok(name) } else { Err(format!("no file may get the name {name}").into()) }
}

/// The path of the directory that has a path's last name, and that name.
fn split(path: &str) -> (Option<&str>, &str) {
    match path.rsplit_once('/') {
        Some((above, name)) => (Some(above), name),
        None => (None, path),
    }
}

impl Prodos {
    fn open(image: Vec<u8>) -> Outcome<Self> {
        let blocks = image.len() / BLOCK;
        if blocks <= ROOT || image.len() % BLOCK != 0 {
            return Err("the image is of no volume".into());
        }
        let mut volume = Self {
            image,
            blocks,
            bitmap: 0,
            system: vec![false; blocks],
        };
        volume.bitmap = volume.word(ROOT * BLOCK + 0x27);
        if volume.word(ROOT * BLOCK + 0x29) != blocks {
            return Err("the image isn't as long as its volume".into());
        }
        volume.system[..ROOT].fill(true);
        let files = volume.walk()?;
        for block in volume.bitmap..volume.bitmap + blocks.div_ceil(8 * BLOCK) {
            take(&mut volume.system, block)?;
        }
        volume.check(&files)?;
        Ok(volume)
    }

    fn word(&self, at: usize) -> usize {
        usize::from(self.image[at]) | usize::from(self.image[at + 1]) << 8
    }

    fn put_word(&mut self, at: usize, number: usize) {
        self.image[at..at + 2].copy_from_slice(&word(number));
    }

    fn block(&mut self, place: usize) -> &mut [u8] {
        &mut self.image[place * BLOCK..][..BLOCK]
    }

    fn next(&self, block: usize) -> Option<usize> {
        Some(self.word(block * BLOCK + 2)).filter(|next| *next != 0)
    }

    /// Where the slots of a directory begin, behind its header.
    fn slots(&self, key: usize) -> impl Iterator<Item = usize> {
        let run = iter::successors(Some(key), |block| self.next(*block));
        run.flat_map(|block| (0..ENTRIES).map(move |slot| block * BLOCK + 4 + slot * ENTRY)).skip(1)
    }

    /// Takes the blocks of a directory.
    fn take_directory(&mut self, key: usize) -> Outcome<()> {
        let mut coming = Some(key);
        while let Some(block) = coming {
            take(&mut self.system, block)?;
            coming = self.next(block);
        }
        let header = &self.image[key * BLOCK + 4..][..ENTRY];
        let storage = if key == ROOT { 0xf } else { 0xe };
        if header[0] >> 4 != storage || header[0x1f..0x21] != [ENTRY as u8, ENTRIES as u8] {
            return Err(format!("block {key} is no key block").into());
        }
        Ok(())
    }

    /// Walks the directories with a list of those to come, by their key blocks; tells the slots of all files.
    fn walk(&mut self) -> Outcome<Vec<usize>> {
        let (mut files, mut coming) = (Vec::new(), vec![ROOT]);
        while let Some(key) = coming.pop() {
            self.take_directory(key)?;
            for slot in self.slots(key) {
                match self.image[slot] >> 4 {
                    0 => {}
                    1..=3 => files.push(slot),
                    0xd => coming.push(self.word(slot + 0x11)),
                    storage => return Err(format!("a file is of storage type {storage}").into()),
                }
            }
        }
        Ok(files)
    }

    fn pointer(&self, index: usize, number: usize) -> usize {
        let at = index * BLOCK + number;
        usize::from(self.image[at]) | usize::from(self.image[at + POINTERS]) << 8
    }

    fn point(&mut self, index: usize, number: usize, place: usize) {
        let [low, high] = word(place);
        let block = self.block(index);
        block[number] = low;
        block[number + POINTERS] = high;
    }

    /// Adds a block to the parts, and what it points to by so many levels of indexes.
    fn gather(&self, block: usize, levels: u8, parts: &mut Vec<usize>) -> Outcome<()> {
        if block >= self.blocks {
            return Err(format!("block {block} is out of range").into());
        }
        parts.push(block);
        let pointers = match levels {
            0 => return Ok(()),
            1 => POINTERS,
            _ => INDEXES,
        };
        for number in 0..pointers {
            let next = self.pointer(block, number);
            if next != 0 {
                self.gather(next, levels - 1, parts)?;
            }
        }
        Ok(())
    }

    /// Adds the indexes and the body of a file to the parts.
    fn gather_file(&self, slot: usize, parts: &mut Vec<usize>) -> Outcome<()> {
        let storage = self.image[slot] >> 4;
        self.gather(self.word(slot + 0x11), storage - 1, parts)
    }

    /// Whether each part stands alone at an available place that is marked used.
    fn check(&self, files: &[usize]) -> Outcome<()> {
        let mut taken = self.system.clone();
        let mut parts = Vec::new();
        for slot in files {
            parts.clear();
            self.gather_file(*slot, &mut parts)?;
            for part in &parts {
                take(&mut taken, *part)?;
                if self.is_marked_free(*part) {
                    return Err(format!("block {part} is marked free").into());
                }
            }
        }
        Ok(())
    }

    /// The byte and the bit of a block in the map.
    fn bit(&self, place: usize) -> (usize, u8) {
        (self.bitmap * BLOCK + place / 8, 0x80 >> (place % 8))
    }

    fn is_marked_free(&self, place: usize) -> bool {
        let (at, bit) = self.bit(place);
        self.image[at] & bit != 0
    }

    fn free_places(&self, count: usize) -> Outcome<Vec<usize>> {
        let free = (0..self.blocks).filter(|place| !self.system[*place] && self.is_marked_free(*place));
        let free: Vec<usize> = free.take(count).collect();
        if free.len() < count {
            return Err("the volume is full".into());
        }
        Ok(free)
    }

    /// The slot of the first entry of a directory that has a name and one of some storage types.
    fn slot_of(&self, directory: usize, name: &str, storages: &[u8]) -> Option<usize> {
        self.slots(directory).find(|slot| {
            let (storage, length) = (self.image[*slot] >> 4, usize::from(self.image[*slot] & 15));
            storages.contains(&storage) && self.image[slot + 1..][..length] == *name.to_ascii_uppercase().as_bytes()
        })
    }

    /// The key block of the directory that a path leads to.
    fn directory(&self, path: Option<&str>) -> Outcome<usize> {
        let mut directory = ROOT;
        for name in path.into_iter().flat_map(|path| path.split('/')) {
            let slot = self.slot_of(directory, name, &[0xd]).ok_or_else(|| format!("there is no directory {name}"))?;
            directory = self.word(slot + 0x11);
        }
        Ok(directory)
    }

    /// The key block of a file's directory, and the slot of the file.
    fn find(&self, path: &str) -> Outcome<(usize, usize)> {
        let (above, name) = split(path);
        let directory = self.directory(above)?;
        match self.slot_of(directory, name, &[1, 2, 3]) {
            Some(slot) => Ok((directory, slot)),
            None => Err(format!("no file has the name {path}").into()),
        }
    }

    /// A name that an entry may get, and that none of a directory has.
    fn fresh_name<'a>(&self, directory: usize, name: &'a str) -> Outcome<&'a str> {
        match self.slot_of(directory, new_pro_name(name)?, &[1, 2, 3, 0xd]) {
            None => Ok(name),
            Some(_) => Err(format!("an entry has the name {name}").into()),
        }
    }

    fn put_name(&mut self, slot: usize, storage: u8, name: &str) {
        self.image[slot] = storage << 4 | name.len() as u8;
        put(&mut self.image[slot + 1..][..LONGEST_NAME], name.to_ascii_uppercase().as_bytes());
    }

    /// Writes an index, the first of its places, and the units that it names.
    fn put_index(&mut self, places: &[usize], bytes: &[u8]) {
        self.block(places[0]).fill(0);
        for (number, (place, bytes)) in places[1..].iter().zip(bytes.chunks(BLOCK)).enumerate() {
            self.point(places[0], number, *place);
            put(self.block(*place), bytes);
        }
    }

    /// Writes a master index, the first of its places, and the indexes that it names.
    fn put_tree(&mut self, places: &[usize], bytes: &[u8]) {
        self.block(places[0]).fill(0);
        let indexes = places[1..].chunks(1 + POINTERS).zip(bytes.chunks(POINTERS * BLOCK));
        for (number, (places_of_index, bytes)) in indexes.enumerate() {
            self.point(places[0], number, places_of_index[0]);
            self.put_index(places_of_index, bytes);
        }
    }

    fn put_entry(&mut self, slot: usize, directory: usize, key: usize, blocks: usize, eof: usize) {
        self.image[slot + 0x10] = 6;
        self.put_word(slot + 0x11, key);
        self.put_word(slot + 0x13, blocks);
        self.put_word(slot + 0x15, eof);
        self.image[slot + 0x17] = (eof >> 16) as u8;
        self.image[slot + 0x18..slot + 0x25].fill(0);
        self.image[slot + 0x1e] = 0xe3;
        self.put_word(slot + 0x25, directory);
    }
}

impl Volume for Prodos {
    fn lock(&mut self, path: &str, locked: bool) -> Outcome<()> {
        let (_, slot) = self.find(path)?;
        if locked {
            self.image[slot + 0x1e] &= !0xc2;
        } else {
            self.image[slot + 0x1e] |= 0xc3;
        }
        Ok(())
    }

    fn rename(&mut self, path: &str, new: &str) -> Outcome<()> {
        let (directory, slot) = self.find(path)?;
        let name = self.fresh_name(directory, new)?;
        if self.image[slot + 0x1e] & CAN_RENAME == 0 {
            return Err("the file is locked".into());
        }
        self.put_name(slot, self.image[slot] >> 4, name);
        Ok(())
    }

    fn delete(&mut self, path: &str) -> Outcome<()> {
        let (directory, slot) = self.find(path)?;
        if self.image[slot + 0x1e] & CAN_DESTROY == 0 {
            return Err("the file is locked".into());
        }
        let mut parts = Vec::new();
        self.gather_file(slot, &mut parts)?;
        for part in parts {
            let (at, bit) = self.bit(part);
            self.image[at] |= bit;
        }
        self.image[slot] = 0;
        let count = directory * BLOCK + FILE_COUNT;
        self.put_word(count, self.word(count).saturating_sub(1));
        Ok(())
    }

    fn save(&mut self, path: &str, file: &[u8]) -> Outcome<()> {
        let (above, name) = split(path);
        let directory = self.directory(above)?;
        let name = self.fresh_name(directory, name)?;
        if file.len() > LONGEST {
            return Err("the file is too long".into());
        }
        let slot = self.slots(directory).find(|slot| self.image[*slot] >> 4 == 0).ok_or("the directory is full")?;
        let units = file.len().div_ceil(BLOCK).max(1);
        let (storage, tables) = match units {
            1 => (1, 0),
            2..=POINTERS => (2, 1),
            _ => (3, 1 + units.div_ceil(POINTERS)),
        };
        let places = self.free_places(units + tables)?;
        match storage {
            1 => put(self.block(places[0]), file),
            2 => self.put_index(&places, file),
            _ => self.put_tree(&places, file),
        }
        for place in &places {
            let (at, bit) = self.bit(*place);
            self.image[at] &= !bit;
        }
        self.put_name(slot, storage, name);
        self.put_entry(slot, directory, places[0], places.len(), file.len());
        let count = directory * BLOCK + FILE_COUNT;
        self.put_word(count, (self.word(count) + 1).min(0xffff));
        Ok(())
    }

    fn image(&self) -> &[u8] {
        &self.image
    }
}

/// The volume of an image: of ProDOS, where it isn't one of DOS 3.3.
fn open(path: &str) -> Outcome<Box<dyn Volume>> {
    let image = fs::read(path)?;
    if Dos::is_on(&image) {
        return Ok(Box::new(Dos::open(image)?));
    }
    Ok(Box::new(Prodos::open(image)?))
}

/// Replaces a file as a whole: a new one beside it is put onto the disk and takes its place.
fn replace(out: &str, image: &[u8]) -> Outcome<()> {
    let beside = format!("{out}.new");
    let mut file = fs::File::create_new(&beside)?;
    file.write_all(image)?;
    file.sync_all()?;
    fs::rename(beside, out)?;
    Ok(())
}

fn main() -> Outcome<()> {
    let words: Vec<String> = env::args().skip(1).collect();
    let words: Vec<&str> = words.iter().map(String::as_str).collect();
    let (["lock" | "unlock" | "delete", image, _, out] | ["rename" | "save", image, _, _, out]) = words[..] else {
        return Err("plain lock|unlock|delete IMAGE NAME OUT | plain rename IMAGE NAME NEW OUT | plain save IMAGE NAME FROM OUT".into());
    };
    let mut volume = open(image)?;
    match words[..] {
        ["lock", _, name, _] => volume.lock(name, true)?,
        ["unlock", _, name, _] => volume.lock(name, false)?,
        ["delete", _, name, _] => volume.delete(name)?,
        ["rename", _, name, new, _] => volume.rename(name, new)?,
        ["save", _, name, from, _] => volume.save(name, &fs::read(from)?)?,
        _ => return Err("the command wants other words".into()),
    }
    replace(out, volume.image())?;
    println!("OK");
    Ok(())
}
