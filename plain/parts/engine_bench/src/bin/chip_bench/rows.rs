//! The rows: calls of one kind, on a volume that was prepared for them.

use crate::bench::{Done, Meter, On, append};
use crate::images::{LONG, LONGER, PIECE, SIXTEEN, TEN, overwrite, write_file};
use liverymenhir::{OpenFlags, Whence};

/// A row of a volume: its name, and what is called.
pub type Row = (&'static str, fn(&mut On<'_>, &mut Meter) -> Done);

/// Rows on a volume that is half full.
pub const HALF: [Row; 19] = [
    ("stat", stat),
    ("stat of no file", stat_of_none),
    ("create", create),
    ("open", open),
    ("read of 1,024, in order", read),
    ("append of 4,096, first", append_first),
    ("append of 4,096, later", append_later),
    ("write of 16, direct", write_direct),
    ("write of 16, waiting", write_waiting),
    ("log line of 60, direct", log_line),
    ("overwrite of 100", overwrite_some),
    ("truncate to 1,000", truncate),
    ("truncate to 0", truncate_all),
    ("rename", rename),
    ("remove of 10 data pages", remove),
    ("gc, nothing to do", collect_none),
    ("gc after 3 removes", collect),
    ("info", info),
    ("flush of 100", flush),
];

/// Rows on a volume with a file that has further index pages.
pub const LONG_ONES: [Row; 5] = [
    ("read of 1,024, at random in 256 KiB", read_long),
    ("append of 4,096 to 256 KiB", append_long),
    ("overwrite of 100 in 256 KiB", overwrite_long),
    ("truncate of 256 KiB to 1,000", truncate_long),
    ("remove of 256 KiB", remove_long),
];

/// The names of the first, the middle and the last file of ten data pages.
fn some(volume: &mut On<'_>) -> Done<[Vec<u8>; 3]> {
    // (one more is `long`)
    let last = volume.info()?.files - 2;
    Ok([0, last / 2, last].map(|i| format!("f{i}").into_bytes()))
}

fn stat(volume: &mut On<'_>, meter: &mut Meter) -> Done {
    for name in some(volume)? {
        let told = meter.call(volume, |volume| volume.stat(&name))?;
        assert_eq!(told.size, TEN);
    }
    Ok(())
}

fn stat_of_none(volume: &mut On<'_>, meter: &mut Meter) -> Done {
    let told = meter.call(volume, |volume| Ok(volume.stat(b"none").is_err()))?;
    assert!(told);
    Ok(())
}

fn create(volume: &mut On<'_>, meter: &mut Meter) -> Done {
    for i in 0..8 {
        meter.call(volume, |volume| volume.create(format!("new{i}").as_bytes()))?;
    }
    Ok(())
}

fn open(volume: &mut On<'_>, meter: &mut Meter) -> Done {
    for name in some(volume)? {
        let fd = meter.call(volume, |volume| volume.open(&name, OpenFlags::RDONLY))?;
        volume.close(fd)?;
    }
    Ok(())
}

fn read(volume: &mut On<'_>, meter: &mut Meter) -> Done {
    let fd = volume.open(b"long", OpenFlags::RDONLY)?;
    for _ in 0..LONG / 1024 {
        let count = meter.call(volume, |volume| volume.read(fd, &mut [0; 1024]))?;
        assert_eq!(count, 1024);
    }
    Ok(volume.close(fd)?)
}

fn append_first(volume: &mut On<'_>, meter: &mut Meter) -> Done {
    let fd = volume.open(b"log", append() | OpenFlags::DIRECT)?;
    meter.call(volume, |volume| volume.write(fd, &[1; PIECE as usize]))?;
    Ok(volume.close(fd)?)
}

fn append_later(volume: &mut On<'_>, meter: &mut Meter) -> Done {
    let fd = volume.open(b"log", append() | OpenFlags::DIRECT)?;
    volume.write(fd, &[1; PIECE as usize])?;
    for _ in 0..3 {
        meter.call(volume, |volume| volume.write(fd, &[1; PIECE as usize]))?;
    }
    Ok(volume.close(fd)?)
}

fn write_direct(volume: &mut On<'_>, meter: &mut Meter) -> Done {
    let fd = volume.open(b"log", append() | OpenFlags::DIRECT)?;
    for _ in 0..32 {
        meter.call(volume, |volume| volume.write(fd, &[1; 16]))?;
    }
    Ok(volume.close(fd)?)
}

fn write_waiting(volume: &mut On<'_>, meter: &mut Meter) -> Done {
    let fd = volume.open(b"log", append())?;
    for _ in 0..128 {
        meter.call(volume, |volume| volume.write(fd, &[1; 16]))?;
    }
    Ok(volume.close(fd)?)
}

// A line is a call here, from open to close.
fn log_line(volume: &mut On<'_>, meter: &mut Meter) -> Done {
    for _ in 0..64 {
        meter.call(volume, |volume| {
            let fd = volume.open(b"log", append() | OpenFlags::DIRECT)?;
            volume.write(fd, &[1; 60])?;
            volume.close(fd)
        })?;
    }
    Ok(())
}

fn flush(volume: &mut On<'_>, meter: &mut Meter) -> Done {
    let fd = volume.open(b"log", append())?;
    for _ in 0..8 {
        volume.write(fd, &[1; 100])?;
        meter.call(volume, |volume| volume.flush(fd))?;
    }
    Ok(volume.close(fd)?)
}

fn overwrite_some(volume: &mut On<'_>, meter: &mut Meter) -> Done {
    let (mut seed, files) = (1, volume.info()?.files - 1);
    for _ in 0..8 {
        overwrite(volume, &mut seed, files, TEN, meter)?;
    }
    Ok(())
}

fn cut_files(volume: &mut On<'_>, size: u32, meter: &mut Meter) -> Done {
    for name in some(volume)? {
        let fd = volume.open(&name, OpenFlags::WRONLY)?;
        meter.call(volume, |volume| volume.truncate(fd, size))?;
        volume.close(fd)?;
    }
    Ok(())
}

fn truncate(volume: &mut On<'_>, meter: &mut Meter) -> Done {
    cut_files(volume, 1000, meter)
}

fn truncate_all(volume: &mut On<'_>, meter: &mut Meter) -> Done {
    cut_files(volume, 0, meter)
}

fn rename(volume: &mut On<'_>, meter: &mut Meter) -> Done {
    for name in some(volume)? {
        let new = [&b"new-"[..], &name].concat();
        meter.call(volume, |volume| volume.rename(&name, &new))?;
    }
    Ok(())
}

fn remove(volume: &mut On<'_>, meter: &mut Meter) -> Done {
    for name in some(volume)? {
        meter.call(volume, |volume| volume.remove(&name))?;
    }
    Ok(())
}

fn collect_none(volume: &mut On<'_>, meter: &mut Meter) -> Done {
    volume.gc()?;
    meter.call(volume, |volume| volume.gc())
}

fn collect(volume: &mut On<'_>, meter: &mut Meter) -> Done {
    volume.gc()?;
    for name in some(volume)? {
        volume.remove(&name)?;
    }
    meter.call(volume, |volume| volume.gc())
}

fn info(volume: &mut On<'_>, meter: &mut Meter) -> Done {
    meter.call(volume, |volume| volume.info())?;
    Ok(())
}

// A place of the longer file that is the same each time.
fn place(i: u32) -> i64 {
    i64::from(i * 37_649 % (LONGER - 1024))
}

fn read_long(volume: &mut On<'_>, meter: &mut Meter) -> Done {
    let fd = volume.open(b"longer", OpenFlags::RDONLY)?;
    for i in 0..32 {
        volume.seek(fd, place(i), Whence::Set)?;
        let count = meter.call(volume, |volume| volume.read(fd, &mut [0; 1024]))?;
        assert_eq!(count, 1024);
    }
    Ok(volume.close(fd)?)
}

fn append_long(volume: &mut On<'_>, meter: &mut Meter) -> Done {
    let fd = volume.open(b"longer", append() | OpenFlags::DIRECT)?;
    for _ in 0..8 {
        meter.call(volume, |volume| volume.write(fd, &[1; PIECE as usize]))?;
    }
    Ok(volume.close(fd)?)
}

fn overwrite_long(volume: &mut On<'_>, meter: &mut Meter) -> Done {
    let fd = volume.open(b"longer", OpenFlags::WRONLY | OpenFlags::DIRECT)?;
    for i in 0..16 {
        volume.seek(fd, place(i), Whence::Set)?;
        meter.call(volume, |volume| volume.write(fd, &[1; 100]))?;
    }
    Ok(volume.close(fd)?)
}

fn truncate_long(volume: &mut On<'_>, meter: &mut Meter) -> Done {
    let fd = volume.open(b"longer", OpenFlags::WRONLY)?;
    meter.call(volume, |volume| volume.truncate(fd, 1000))?;
    Ok(volume.close(fd)?)
}

fn remove_long(volume: &mut On<'_>, meter: &mut Meter) -> Done {
    meter.call(volume, |volume| volume.remove(b"longer"))
}

/// Lists a volume of so many files.
pub fn next(volume: &mut On<'_>, files: u32, each: &mut Meter) -> Done {
    let (mut after, mut found) = (0, 0);
    while let Some(stat) = each.call(volume, |volume| volume.next(after))? {
        (after, found) = (stat.id, found + 1);
    }
    assert_eq!(found, files);
    Ok(())
}

/// Overwrites some of so many files.
pub fn collecting(volume: &mut On<'_>, files: u32, each: &mut Meter) -> Done {
    let mut seed = 7;
    for _ in 0..200 {
        overwrite(volume, &mut seed, files, SIXTEEN, each)?;
    }
    Ok(())
}

/// Begins so many files of so many bytes, one after the other; where there are more than `kept` the oldest goes. What was written and removed is
/// counted call by call in `calls`, and file by file, once `kept` files are there, in `files`.
pub fn rotate(
    volume: &mut On<'_>,
    kept: u32,
    size: u32,
    calls: &mut Meter,
    files: &mut Meter,
) -> Done {
    for i in 0..kept {
        write_file(volume, &format!("log{i}"), size)?;
    }
    for i in kept..2 * kept {
        let before = volume.nor().counts;
        let old = format!("log{}", i - kept);
        calls.call(volume, |volume| volume.remove(old.as_bytes()))?;
        let fd = volume.open(format!("log{i}").as_bytes(), append())?;
        for _ in 0..size / PIECE {
            calls.call(volume, |volume| {
                volume.write(fd, &[i as u8; PIECE as usize])
            })?;
        }
        calls.call(volume, |volume| volume.close(fd))?;
        files.count(before, volume.nor().counts);
    }
    Ok(())
}
