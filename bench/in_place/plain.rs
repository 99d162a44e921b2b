//! A plain program that reads and writes the units of a file by the calls that another has made: each read into a buffer, each write from
//! what was read last. With `each` it puts the file onto the disk after each write, else once at the end.

use std::fs::{self, OpenOptions};
use std::io;
use std::os::unix::fs::FileExt;

fn main() -> io::Result<()> {
    let words: Vec<String> = std::env::args().collect();
    let [_, image, calls, syncs] = words.as_slice() else {
        return Err(io::Error::other("usage: plain IMAGE CALLS each|once"));
    };
    let file = OpenOptions::new().read(true).write(true).open(image)?;
    let mut unit = vec![0; 512];
    for line in fs::read_to_string(calls)?.lines() {
        let mut words = line.split(' ');
        let is_read = words.next() == Some("r");
        let mut number = || words.next().and_then(|word| word.parse::<u64>().ok()).unwrap_or(0);
        let (at, count) = (number(), number() as usize);
        if is_read {
            file.read_exact_at(&mut unit[..count], at)?;
        } else {
            file.write_all_at(&unit[..count], at)?;
            if syncs == "each" {
                file.sync_all()?;
            }
        }
    }
    file.sync_all()
}
