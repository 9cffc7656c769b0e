//! A plain program that writes what a log writes at each append, for times beside the product's: the record behind a closed gate,
//! and then the open gate, each made lasting. Nothing is made, checked or kept besides. It prints the nanoseconds of each append.
//! Its words are a path, the bytes of a window, a time in milliseconds, and `data` (`fdatasync`) or `all` (`fsync`). The file is made
//! anew.
use std::fs::{File, OpenOptions};
use std::io;
use std::os::unix::fs::FileExt;
use std::time::{Duration, Instant};

const MAX_USED: u64 = 67_108_864;

fn main() -> io::Result<()> {
    let words: Vec<String> = std::env::args().collect();
    let [_, path, size, time, form] = words.as_slice() else {
        panic!("a path, the bytes of a window, a time in milliseconds, and data or all");
    };
    let size: usize = size.parse().expect("a size");
    let limit = Duration::from_millis(time.parse().expect("a time"));
    let sync: fn(&File) -> io::Result<()> = match form.as_str() {
        "data" => File::sync_data,
        "all" => File::sync_all,
        _ => panic!("data or all"),
    };
    let file = OpenOptions::new().read(true).write(true).create(true).truncate(true).open(path)?;
    file.write_all_at(b"\xa5DBUSLOG1\0\0\0\0\0\0\0\0\0", 0)?;
    file.sync_all()?;

    // the length of a window, the window, and a closed gate
    let text = vec![0; 4 + size + 1];
    let (mut used, mut times) = (18, Vec::new());
    let mut taken = Duration::ZERO;
    while taken < limit && used + text.len() as u64 <= MAX_USED {
        let start = Instant::now();
        file.write_all_at(&text, used)?;
        sync(&file)?;
        file.write_all_at(&[0xa5], used - 1)?;
        sync(&file)?;
        let time = start.elapsed();
        taken += time;
        used += text.len() as u64;
        times.push(time.as_nanos());
    }
    for time in times {
        println!("{time}");
    }
    Ok(())
}
