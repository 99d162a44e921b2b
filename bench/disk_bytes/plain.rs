//! The same work in plain Rust: the 35 tracks of a disk made of its sectors, their fields found in one pass and checked,
//! and the sectors read from them. Only for measuring beside the proved code.
use std::time::{Duration, Instant};

const RUNS: u32 = 200;
const IMAGE: usize = 143_360;
const TRACK: usize = 6_656;
const FIELD: usize = 343;
const NONE: u8 = 0xFF;

const DISK_BYTES: [u8; 64] = [
    0x96, 0x97, 0x9A, 0x9B, 0x9D, 0x9E, 0x9F, 0xA6, 0xA7, 0xAB, 0xAC, 0xAD, 0xAE, 0xAF, 0xB2, 0xB3, 0xB4, 0xB5, 0xB6, 0xB7, 0xB9, 0xBA,
    0xBB, 0xBC, 0xBD, 0xBE, 0xBF, 0xCB, 0xCD, 0xCE, 0xCF, 0xD3, 0xD6, 0xD7, 0xD9, 0xDA, 0xDB, 0xDC, 0xDD, 0xDE, 0xDF, 0xE5, 0xE6, 0xE7,
    0xE9, 0xEA, 0xEB, 0xEC, 0xED, 0xEE, 0xEF, 0xF2, 0xF3, 0xF4, 0xF5, 0xF6, 0xF7, 0xF9, 0xFA, 0xFB, 0xFC, 0xFD, 0xFE, 0xFF,
];

const VALUES: [u8; 256] = {
    let mut values = [NONE; 256];
    let mut value = 0;
    while value < 64 {
        values[DISK_BYTES[value] as usize] = value as u8;
        value += 1;
    }
    values
};

const DOS_OF_PHYSICAL: [usize; 16] = [0, 7, 14, 6, 13, 5, 12, 4, 11, 3, 10, 2, 9, 1, 8, 15];

fn swapped(pair: u8) -> u8 {
    (pair & 1) << 1 | pair >> 1 & 1
}

fn encoded(content: &[u8; 256]) -> [u8; FIELD] {
    let mut values = [0; 342];
    for (third, bytes) in content.chunks(86).enumerate() {
        for (group, byte) in values[..86].iter_mut().zip(bytes) {
            *group |= swapped(byte & 3) << (2 * third);
        }
    }
    for (value, byte) in values[86..].iter_mut().zip(content) {
        *value = byte >> 2;
    }
    let mut field = [0; FIELD];
    let mut before = 0;
    for (disk_byte, value) in field.iter_mut().zip(values) {
        *disk_byte = DISK_BYTES[(value ^ before) as usize];
        before = value;
    }
    field[342] = DISK_BYTES[before as usize];
    field
}

fn is_data_field(field: &[u8; FIELD]) -> bool {
    let (sum, all) = field.iter().fold((0, 0), |(sum, all), byte| {
        let value = VALUES[*byte as usize];
        (sum ^ value, all | value)
    });
    all < 64 && sum == 0
}

fn decoded(field: &[u8; FIELD]) -> [u8; 256] {
    let mut values = [0; 342];
    let mut value = 0;
    for (slot, byte) in values.iter_mut().zip(field) {
        value ^= VALUES[*byte as usize];
        *slot = value;
    }
    let mut content = [0; 256];
    for (third, bytes) in content.chunks_mut(86).enumerate() {
        for (i, byte) in bytes.iter_mut().enumerate() {
            *byte = values[86 + 86 * third + i] << 2 | swapped(values[i] >> (2 * third) & 3);
        }
    }
    content
}

fn odd_even(value: u8) -> [u8; 2] {
    [value >> 1 | 0xAA, value | 0xAA]
}

fn address(volume: u8, track: u8, sector: u8) -> [u8; 11] {
    let mut field = [0xD5, 0xAA, 0x96, 0, 0, 0, 0, 0, 0, 0, 0];
    for (i, value) in [volume, track, sector, volume ^ track ^ sector].into_iter().enumerate() {
        field[3 + 2 * i..5 + 2 * i].copy_from_slice(&odd_even(value));
    }
    field
}

fn sector_at(track: usize, sector: usize) -> usize {
    256 * (16 * track + DOS_OF_PHYSICAL[sector])
}

fn make(disk: &[u8], volume: u8) -> Vec<u8> {
    let mut tracks = vec![0xFF; 35 * TRACK];
    for track in 0..35 {
        for sector in 0..16 {
            let at = sector_at(track, sector);
            let place = &mut tracks[TRACK * track + 48 + 396 * sector..][..396];
            place[..11].copy_from_slice(&address(volume, track as u8, sector as u8));
            place[11..14].copy_from_slice(&[0xDE, 0xAA, 0xEB]);
            place[20..23].copy_from_slice(&[0xD5, 0xAA, 0xAD]);
            place[23..366].copy_from_slice(&encoded(disk[at..at + 256].try_into().unwrap()));
            place[366..369].copy_from_slice(&[0xDE, 0xAA, 0xEB]);
        }
    }
    tracks
}

fn field_at(track: &[u8; TRACK], place: usize) -> [u8; FIELD] {
    let mut field = [0; FIELD];
    let front = FIELD.min(TRACK - place);
    field[..front].copy_from_slice(&track[place..place + front]);
    field[front..].copy_from_slice(&track[..FIELD - front]);
    field
}

fn field_from(bytes: &[u8; TRACK], place: usize, track: u8) -> Option<(usize, usize)> {
    let at = |i: usize| bytes[(place + i) % TRACK];
    let number = |i: usize| (at(i) << 1 | 1) & at(i + 1);
    let (volume, sector) = (number(3), number(7));
    if sector > 15 || (0..11).any(|i| at(i) != address(volume, track, sector)[i]) {
        return None;
    }
    let mark = (11..75).find(|i| at(*i) == 0xD5)?;
    if at(mark + 1) != 0xAA || at(mark + 2) != 0xAD {
        return None;
    }
    let data = (place + mark + 3) % TRACK;
    is_data_field(&field_at(bytes, data)).then_some((sector as usize, data))
}

fn open(tracks: &[u8]) -> Vec<Option<usize>> {
    let mut fields = vec![None; 560];
    for track in 0..35 {
        let bytes = tracks[TRACK * track..TRACK * (track + 1)].try_into().unwrap();
        for place in 0..TRACK {
            if tracks[TRACK * track + place] == 0xD5 {
                if let Some((sector, data)) = field_from(bytes, place, track as u8) {
                    fields[16 * track + sector].get_or_insert(data);
                }
            }
        }
    }
    fields
}

fn read(tracks: &[u8], fields: &[Option<usize>]) -> Option<Vec<u8>> {
    let mut disk = vec![0; IMAGE];
    for (n, field) in fields.iter().enumerate() {
        let bytes = tracks[TRACK * (n / 16)..TRACK * (n / 16 + 1)].try_into().unwrap();
        let at = sector_at(n / 16, n % 16);
        disk[at..at + 256].copy_from_slice(&decoded(&field_at(bytes, (*field)?)));
    }
    Some(disk)
}

fn timed<T>(best: &mut Duration, work: impl FnOnce() -> T) -> T {
    let start = Instant::now();
    let value = work();
    *best = (*best).min(start.elapsed());
    value
}

fn main() {
    let disk: Vec<u8> = (0..IMAGE).map(|at| (at / 251 % 256) as u8).collect();
    let mut best = [Duration::MAX; 3];
    for _ in 0..RUNS {
        let [made, opened, taken] = &mut best;
        let tracks = timed(made, || make(&disk, 254));
        let fields = timed(opened, || open(&tracks));
        assert!(timed(taken, || read(&tracks, &fields)) == Some(disk.clone()));
    }
    for (name, time) in ["tracks-made", "tracks-opened", "tracks-read"].iter().zip(best) {
        println!("{name} 560 {}", time.as_nanos());
    }
}
