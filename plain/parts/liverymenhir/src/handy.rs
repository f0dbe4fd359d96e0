//! What firmware in Rust is used to, over the calls of a volume. Written by hand: nothing here is proved, and all of it goes by the
//! public calls.

use crate::geometry::Geometry;
use crate::nor_core::Nor;
use crate::table_model::{FsErr, OpenFlags, Stat, Whence};
use crate::vol_check::CheckErr;
use crate::vol_mount::{FormatErr, format};
use crate::volume::{Stage, Unmounted, Volume};

/// How many bytes a volume is lent, as constants for arrays in a `static`.
///
/// ```
/// use liverymenhir::{Geometry, MagicKind, Needs};
/// const G: Geometry = match Geometry::new(256, 4096, 16, 4096, 0, MagicKind::Length) {
///     Ok(g) => g,
///     Err(_) => panic!("no such volume"),
/// };
/// const NEEDS: Needs = Needs::of(&G);
/// static WORK: [u8; NEEDS.work] = [0; NEEDS.work];
/// assert_eq!((WORK.len(), NEEDS.cache, NEEDS.window, NEEDS.check), (1375, 264, 256, 8448));
/// ```
#[derive(Clone, Copy, Debug, PartialEq, Eq)]
pub struct Needs {
    /// Of `Lent::work`.
    pub work: usize,
    /// Of `Lent::cache`, for each page that is kept.
    pub cache: usize,
    /// Of `Lent::window`.
    pub window: usize,
    /// Of what `Volume::check` is lent.
    pub check: usize,
}

impl Needs {
    /// Of a volume of these numbers.
    pub const fn of(g: &Geometry) -> Needs {
        Needs {
            work: g.work_need() as usize,
            cache: g.cache_need() as usize,
            window: g.page() as usize,
            check: g.check_need() as usize,
        }
    }
}

impl core::fmt::Display for CheckErr {
    fn fmt(&self, f: &mut core::fmt::Formatter<'_>) -> core::fmt::Result {
        match self {
            CheckErr::NotMounted => f.write_str("the volume isn't mounted, or was checked since"),
            CheckErr::Wrong(why) => why.fmt(f),
            CheckErr::Mixed { blocks } => write!(f, "{blocks} blocks hold pages of both kinds, and too few places are free to part them"),
            CheckErr::DeviceFault => f.write_str("the device failed"),
            CheckErr::Damaged(why) => write!(f, "a page doesn't read as what was written there: {why}"),
        }
    }
}

impl core::error::Error for CheckErr {}

impl<'b, N: Nor> Volume<'b, N> {
    /// The chip, to look at.
    pub fn nor(&self) -> &N {
        self.nor
    }

    /// The chip. What is written past the volume makes its copies of pages wrong.
    #[doc(hidden)]
    pub fn nor_mut(&mut self) -> &mut N {
        self.nor
    }

    /// How far the volume has come.
    pub fn stage(&self) -> Stage {
        self.stage
    }

    /// Makes an empty volume where `mount` told that there is none, in the same memory, not mounted yet. What stood on the chip is gone.
    pub fn formatted(self) -> Result<Volume<'b, N>, FormatErr> {
        let g = self.geometry;
        let Unmounted { back, last: _ } = self.unmount();
        format(&g, back.nor)?;
        Ok(Volume::new(g, back.nor, back.lent))
    }

    /// As `open_file`, by flags and not by their number.
    pub fn open(&mut self, name: &[u8], flags: OpenFlags) -> Result<u16, FsErr> {
        self.open_file(name, flags.number().into())
    }

    /// Opens a file, for a value that reads, writes and seeks, and is closed by `File::close` or when it goes.
    pub fn file<'v>(&'v mut self, name: &[u8], flags: OpenFlags) -> Result<File<'v, 'b, N>, FsErr> {
        let fd = self.open(name, flags)?;
        Ok(File { volume: self, fd })
    }

    /// The records of all files, in the order of their ids.
    pub fn files<'v>(&'v mut self) -> Files<'v, 'b, N> {
        Files {
            volume: self,
            after: Some(0),
        }
    }
}

/// An open file. It has the volume to itself: open several by `Volume::open_file`, whose descriptors are numbers.
pub struct File<'v, 'b, N: Nor> {
    volume: &'v mut Volume<'b, N>,
    fd: u16,
}

impl<'b, N: Nor> File<'_, 'b, N> {
    /// As `Volume::read`: 0 at the file's end.
    pub fn read(&mut self, into: &mut [u8]) -> Result<usize, FsErr> {
        Ok(self.volume.read(self.fd, into)? as usize)
    }

    /// As `Volume::write`: all bytes or none.
    pub fn write(&mut self, from: &[u8]) -> Result<usize, FsErr> {
        Ok(self.volume.write(self.fd, from)? as usize)
    }

    /// As `Volume::flush`.
    pub fn flush(&mut self) -> Result<(), FsErr> {
        self.volume.flush(self.fd)
    }

    /// As `Volume::seek`.
    pub fn seek(&mut self, offset: i64, from: Whence) -> Result<u32, FsErr> {
        self.volume.seek(self.fd, offset, from)
    }

    /// As `Volume::truncate`.
    pub fn truncate(&mut self, size: u32) -> Result<(), FsErr> {
        self.volume.truncate(self.fd, size)
    }

    /// As `Volume::fstat`.
    pub fn stat(&mut self) -> Result<Stat, FsErr> {
        self.volume.fstat(self.fd)
    }

    /// Closes it, and tells whether what was written is on the chip. A file that only goes is closed too, and its error is lost.
    pub fn close(mut self) -> Result<(), FsErr> {
        self.end()
    }

    fn end(&mut self) -> Result<(), FsErr> {
        match core::mem::replace(&mut self.fd, 0) {
            0 => Ok(()),
            fd => self.volume.close(fd),
        }
    }
}

impl<N: Nor> Drop for File<'_, '_, N> {
    fn drop(&mut self) {
        let _ = self.end();
    }
}

/// The records of all files. It ends after an error.
pub struct Files<'v, 'b, N: Nor> {
    volume: &'v mut Volume<'b, N>,
    after: Option<u16>,
}

impl<N: Nor> Iterator for Files<'_, '_, N> {
    type Item = Result<Stat, FsErr>;

    fn next(&mut self) -> Option<Result<Stat, FsErr>> {
        let told = self.volume.next(self.after?).transpose()?;
        self.after = told.as_ref().ok().map(|stat| stat.id);
        Some(told)
    }
}
