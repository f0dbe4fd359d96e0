//! The images that rows begin with. The engine writes them, with a copy of each page.

use crate::bench::{Done, Meter, On, Start, append, drawn, on};
use liverymenhir::{Geometry, OpenFlags, Whence};

/// Bytes of a file of ten data pages of 256 bytes.
pub const TEN: u32 = 2500;
/// Bytes of a file of sixteen data pages of 256 bytes, and its pages, with the header page.
pub const SIXTEEN: u32 = 4000;
const SIXTEEN_PAGES: u32 = 17;
/// Bytes of the file that is read in order.
pub const LONG: u32 = 8192;
/// Bytes of the file that is long enough for further index pages.
pub const LONGER: u32 = 262_144;
/// Bytes of a piece that is written at once.
pub const PIECE: u32 = 4096;

/// The image of a new volume on which something was done.
fn made(g: &Geometry, work: impl FnOnce(&mut On<'_>) -> Done) -> Done<Vec<u8>> {
    let image = vec![0xFF; (g.blocks() * g.block()) as usize];
    on(g, image, 0, Start::Format, &mut Meter::default(), work)
}

/// Writes a file of so many bytes.
pub fn write_file(volume: &mut On<'_>, name: &str, size: u32) -> Done {
    let fd = volume.open(name.as_bytes(), append())?;
    let mut at = 0;
    while at < size {
        let count = PIECE.min(size - at);
        volume.write(fd, &[at as u8; PIECE as usize][..count as usize])?;
        at += count;
    }
    Ok(volume.close(fd)?)
}

/// Pages that are used, and those that may be, of a volume.
fn used(volume: &mut On<'_>) -> Done<(u32, u32)> {
    let info = volume.info()?;
    Ok((info.index_pages + info.data_pages, info.usable_pages))
}

/// The image of an empty volume.
pub fn empty(g: &Geometry) -> Done<Vec<u8>> {
    made(g, |_| Ok(()))
}

/// The image of a volume with the file `long`, and files of ten data pages, `f0` and on, so many that half of the pages are used.
pub fn half(g: &Geometry) -> Done<Vec<u8>> {
    made(g, |volume| {
        write_file(volume, "long", LONG)?;
        for i in 0.. {
            let (pages, most) = used(volume)?;
            if 2 * pages >= most {
                break;
            }
            write_file(volume, &format!("f{i}"), TEN)?;
        }
        Ok(())
    })
}

/// The image of a volume with so many files of 100 bytes.
pub fn many(g: &Geometry, files: u32) -> Done<Vec<u8>> {
    made(g, |volume| {
        for i in 0..files {
            write_file(volume, &format!("f{i}"), 100)?;
        }
        Ok(())
    })
}

/// The image of a volume with the file `longer`.
pub fn longer(g: &Geometry) -> Done<Vec<u8>> {
    made(g, |volume| write_file(volume, "longer", LONGER))
}

/// Writes 100 bytes at a drawn place of a drawn file of so many bytes.
pub fn overwrite(
    volume: &mut On<'_>,
    seed: &mut u64,
    files: u32,
    size: u32,
    write: &mut Meter,
) -> Done {
    let name = format!("f{}", drawn(seed, files));
    let fd = volume.open(name.as_bytes(), OpenFlags::WRONLY | OpenFlags::DIRECT)?;
    let at = drawn(seed, size - 100);
    volume.seek(fd, at.into(), Whence::Set)?;
    write.call(volume, |volume| volume.write(fd, &[at as u8; 100]))?;
    Ok(volume.close(fd)?)
}

/// The image of a volume with files of sixteen data pages, of which so many of a hundred pages are used at most, and that was overwritten
/// until two and a tenth of its blocks were erased; and how many files these are.
pub fn worn(g: &Geometry, percent: u32) -> Done<(Vec<u8>, u32)> {
    let mut files = 0;
    let image = made(g, |volume| {
        loop {
            let (pages, most) = used(volume)?;
            if 100 * (pages + SIXTEEN_PAGES) > percent * most {
                break;
            }
            write_file(volume, &format!("f{files}"), SIXTEEN)?;
            files += 1;
        }
        let (mut seed, before) = (1, volume.nor().counts);
        while (volume.nor().counts - before).erases < u64::from(2 + g.blocks() / 10) {
            overwrite(volume, &mut seed, files, SIXTEEN, &mut Meter::default())?;
        }
        Ok(())
    })?;
    Ok((image, files))
}
