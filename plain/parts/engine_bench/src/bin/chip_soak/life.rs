//! Calls of a volume until the power goes off.

use crate::chip::Chip;
use crate::drawn;
use crate::model::{Model, Table, Write, has_room};
use liverymenhir::{FsErr, OpenFlags, Volume, Whence};

/// A descriptor: its number, the file, its offset, and whether it appends and writes at once.
struct Fd {
    number: u16,
    name: String,
    at: usize,
    appends: bool,
    direct: bool,
}

/// What a call would leave: a write, or the files after it.
enum Leaves {
    Write(Write),
    Files(Table),
}

/// A volume that takes calls, and what it should tell.
pub struct Life<'v, 'b, 'm> {
    pub volume: &'v mut Volume<'b, Chip>,
    pub model: &'m mut Model,
    pub seed: &'m mut u64,
    fds: Vec<Fd>,
    // what the call under way would leave
    leaves: Leaves,
    pub body: usize,
    pub refusals: u64,
    /// Whether two blocks were free before the call under way.
    pub has_two: bool,
}

/// The power went off, or something is wrong.
pub enum End {
    Off,
    Wrong(String),
}

type Goes = Result<(), End>;

fn wrong<T>(why: String) -> Result<T, End> {
    Err(End::Wrong(why))
}

/// The files that a volume has.
pub fn files_of(volume: &mut Volume<'_, Chip>) -> Result<Table, FsErr> {
    let mut table = Table::new();
    let mut names = Vec::new();
    for stat in volume.files() {
        let stat = stat?;
        let name = String::from_utf8(stat.name.as_slice().to_vec()).expect("a name");
        names.push((name, stat.size as usize));
    }
    for (name, size) in names {
        let fd = volume.open(name.as_bytes(), OpenFlags::RDONLY)?;
        let mut bytes = vec![0; size + 1];
        let count = volume.read(fd, &mut bytes)? as usize;
        volume.close(fd)?;
        bytes.truncate(count);
        assert_eq!(count, size, "the size of {name}");
        assert!(table.insert(name, bytes).is_none(), "a name twice");
    }
    Ok(table)
}

impl<'v, 'b, 'm> Life<'v, 'b, 'm> {
    pub fn new(
        volume: &'v mut Volume<'b, Chip>,
        model: &'m mut Model,
        seed: &'m mut u64,
        body: usize,
    ) -> Self {
        Life {
            volume,
            model,
            seed,
            fds: Vec::new(),
            leaves: Leaves::Files(Table::new()),
            body,
            refusals: 0,
            has_two: false,
        }
    }

    /// Whether what was found after the cut is what the call under way may have left.
    pub fn allowed(
        leaves: &(Option<Write>, Table),
        model: &Model,
        body: usize,
        found: &Table,
    ) -> bool {
        model.allows(body, leaves.0.as_ref(), &leaves.1, found)
    }

    /// What the call under way would leave, to be asked after a cut.
    pub fn under_way(&self) -> (Option<Write>, Table) {
        match &self.leaves {
            Leaves::Write(write) => (Some(write.clone()), self.model.sure.clone()),
            Leaves::Files(table) => (None, table.clone()),
        }
    }

    fn draw(&mut self, below: usize) -> usize {
        drawn(self.seed, below as u32) as usize
    }

    fn name(&mut self) -> String {
        let names = self.volume.geometry.blocks() as usize;
        format!("name{}", self.draw(names))
    }

    // Does a call that leaves these files, and tells its answer, or the refusal that the call may give.
    fn call<T>(
        &mut self,
        after: Table,
        work: impl FnOnce(&mut Volume<'b, Chip>) -> Result<T, FsErr>,
    ) -> Result<Result<T, FsErr>, End> {
        self.leaves = Leaves::Files(after.clone());
        match work(self.volume) {
            Ok(told) => {
                self.model.settle(after);
                Ok(Ok(told))
            }
            Err(FsErr::DeviceFault) => Err(End::Off),
            Err(why) => Ok(Err(why)),
        }
    }

    // Whether there is room for the files that the call would leave.
    fn has_room(&self) -> bool {
        let after = match &self.leaves {
            Leaves::Files(table) => table.clone(),
            Leaves::Write(write) => {
                let mut table = self.model.now();
                write.put(write.bytes.len(), &mut table);
                table
            }
        };
        has_room(self.volume.geometry.blocks() as usize, &after)
    }

    // Whether a refusal for want of room is one that is to be given.
    fn refused(&mut self, what: &str, why: FsErr) -> Goes {
        self.refusals += 1;
        match why {
            FsErr::Tight if !self.has_two => Ok(()),
            FsErr::Full if !self.has_room() => Ok(()),
            why => wrong(format!("{what}: {why:?}")),
        }
    }

    // Whether a call that was done had room.
    fn done(&mut self, what: &str) -> Goes {
        match self.has_room() {
            true => Ok(()),
            false => wrong(format!("{what} without room")),
        }
    }

    fn create(&mut self) -> Goes {
        let name = self.name();
        let mut after = self.model.now();
        let is_there = after.contains_key(&name);
        after.entry(name.clone()).or_default();
        match (
            self.call(after, |volume| volume.create(name.as_bytes()))?,
            is_there,
        ) {
            (Ok(()), false) => self.done("create"),
            (Err(FsErr::ConflictingName), true) => Ok(()),
            (Err(why), false) => self.refused("create", why),
            (told, _) => wrong(format!("create of {name}: {told:?}")),
        }
    }

    fn open(&mut self) -> Goes {
        let name = self.name();
        if self.fds.len() == 3 || self.fds.iter().any(|fd| fd.name == name) {
            return Ok(());
        }
        let (appends, direct, empties) = (self.draw(2) == 0, self.draw(2) == 0, self.draw(6) == 0);
        let mut flags = OpenFlags::CREAT | OpenFlags::RDWR;
        for (is_set, flag) in [
            (appends, OpenFlags::APPEND),
            (direct, OpenFlags::DIRECT),
            (empties, OpenFlags::TRUNC),
        ] {
            if is_set {
                flags = flags | flag;
            }
        }
        let mut after = self.model.now();
        let file = after.entry(name.clone()).or_default();
        if empties {
            file.clear();
        }
        match self.call(after, |volume| volume.open(name.as_bytes(), flags))? {
            Ok(number) => {
                self.fds.push(Fd {
                    number,
                    name,
                    at: 0,
                    appends,
                    direct,
                });
                Ok(())
            }
            // (as where it is truncated by a call: no page may be there for it)
            Err(FsErr::Tight) if empties => {
                self.refusals += 1;
                Ok(())
            }
            Err(why) => self.refused("open", why),
        }
    }

    fn picked(&mut self) -> Option<usize> {
        match self.fds.len() {
            0 => None,
            count => Some(self.draw(count)),
        }
    }

    fn length(&mut self) -> usize {
        match self.draw(8) {
            0..4 => 1 + self.draw(40),
            4 => 1 + self.draw(600),
            5 => self.body * (1 + self.draw(4)),
            6 => 4096,
            _ => 1 + self.draw(560 * self.volume.geometry.blocks() as usize),
        }
    }

    fn write(&mut self) -> Goes {
        let Some(i) = self.picked() else {
            return Ok(());
        };
        let (length, byte) = (self.length(), self.draw(255) as u8);
        let fd = &self.fds[i];
        let (number, name, direct) = (fd.number, fd.name.clone(), fd.direct);
        let at = if fd.appends {
            self.model.now()[&name].len()
        } else {
            fd.at
        };
        let bytes: Vec<u8> = (0..length)
            .map(|k| byte.wrapping_add((k / 7) as u8))
            .collect();
        let write = Write {
            name: name.clone(),
            at,
            bytes,
        };
        self.leaves = Leaves::Write(write.clone());
        match self.volume.write(number, &write.bytes) {
            Ok(count) if count as usize == length => {
                self.done("write")?;
                self.wrote(i, write, direct)
            }
            Err(FsErr::DeviceFault) => Err(End::Off),
            Err(why) => self.refused("write", why),
            Ok(count) => wrong(format!("{count} of {length} bytes written")),
        }
    }

    // A write that goes on with what waits may wait too; before another one what waits is put onto the chip.
    fn wrote(&mut self, i: usize, write: Write, direct: bool) -> Goes {
        self.fds[i].at = write.at + write.bytes.len();
        let goes_on =
            self.model.waiting.last().is_some_and(|last| {
                last.name == write.name && last.at + last.bytes.len() == write.at
            });
        if !goes_on {
            let now = self.model.now();
            self.model.settle(now);
        }
        self.model.waiting.push(write);
        if direct {
            let now = self.model.now();
            self.model.settle(now);
        }
        Ok(())
    }

    fn read(&mut self) -> Goes {
        let Some(i) = self.picked() else {
            return Ok(());
        };
        let now = self.model.now();
        let (number, at) = (self.fds[i].number, self.fds[i].at);
        let mut into = vec![0; 1 + self.draw(3000)];
        let wanted = now[&self.fds[i].name][at..]
            .iter()
            .take(into.len())
            .copied()
            .collect::<Vec<u8>>();
        let told = self.call(now, |volume| volume.read(number, &mut into))?;
        match told {
            Ok(count) if into[..count as usize] == wanted => {
                self.fds[i].at += count as usize;
                Ok(())
            }
            told => wrong(format!(
                "read at {at}: {told:?}, not {} bytes as written",
                wanted.len()
            )),
        }
    }

    fn seek(&mut self) -> Goes {
        let Some(i) = self.picked() else {
            return Ok(());
        };
        let now = self.model.now();
        let at = self.draw(now[&self.fds[i].name].len() + 1);
        let number = self.fds[i].number;
        match self.call(now, |volume| volume.seek(number, at as i64, Whence::Set))? {
            Ok(told) if told as usize == at => {
                self.fds[i].at = at;
                Ok(())
            }
            told => wrong(format!("seek to {at}: {told:?}")),
        }
    }

    fn truncate(&mut self) -> Goes {
        let Some(i) = self.picked() else {
            return Ok(());
        };
        let mut after = self.model.now();
        let (number, name) = (self.fds[i].number, self.fds[i].name.clone());
        let size = self.draw(after[&name].len() + 1);
        after.get_mut(&name).expect("a file").truncate(size);
        match self.call(after, |volume| volume.truncate(number, size as u32))? {
            Ok(()) => {
                let now = self.model.now();
                self.fds[i].at = 0;
                match self.call(now, |volume| volume.seek(number, 0, Whence::Set))? {
                    Ok(0) => Ok(()),
                    told => wrong(format!("seek after truncate: {told:?}")),
                }
            }
            Err(FsErr::Tight) => Ok(()),
            Err(why) => self.refused("truncate", why),
        }
    }

    fn close(&mut self, removes: bool) -> Goes {
        let Some(i) = self.picked() else {
            return Ok(());
        };
        let fd = self.fds.swap_remove(i);
        let mut after = self.model.now();
        if removes {
            after.remove(&fd.name);
        }
        let told = self.call(after, |volume| match removes {
            true => volume.fremove(fd.number),
            false => volume.close(fd.number),
        })?;
        told.or_else(|why| wrong(format!("close: {why:?}")))
    }

    fn flush(&mut self) -> Goes {
        let Some(i) = self.picked() else {
            return Ok(());
        };
        let (now, number) = (self.model.now(), self.fds[i].number);
        self.call(now, |volume| volume.flush(number))?
            .or_else(|why| wrong(format!("flush: {why:?}")))
    }

    fn remove(&mut self) -> Goes {
        let name = self.name();
        if self.fds.iter().any(|fd| fd.name == name) {
            return Ok(());
        }
        let mut after = self.model.now();
        let is_there = after.remove(&name).is_some();
        match (
            self.call(after, |volume| volume.remove(name.as_bytes()))?,
            is_there,
        ) {
            (Ok(()), true) | (Err(FsErr::NotFound), false) => Ok(()),
            (told, _) => wrong(format!("remove: {told:?}, there: {is_there}")),
        }
    }

    fn rename(&mut self) -> Goes {
        let (old, new) = (self.name(), self.name());
        let mut after = self.model.now();
        let (is_old, is_new) = (after.contains_key(&old), after.contains_key(&new));
        if is_old && !is_new {
            let file = after.remove(&old).expect("a file");
            after.insert(new.clone(), file);
        }
        match self.call(after, |volume| {
            volume.rename(old.as_bytes(), new.as_bytes())
        })? {
            Ok(()) if is_old && !is_new => {
                for fd in self.fds.iter_mut().filter(|fd| fd.name == old) {
                    fd.name = new.clone();
                }
                Ok(())
            }
            Err(FsErr::NotFound) if !is_old => Ok(()),
            Err(FsErr::ConflictingName) if is_new => Ok(()),
            Err(why) if is_old && !is_new => self.refused("rename", why),
            told => wrong(format!("rename of {old} to {new}: {told:?}")),
        }
    }

    fn collect(&mut self) -> Goes {
        let now = self.model.now();
        match self.call(now, |volume| volume.gc())? {
            Ok(()) => Ok(()),
            Err(FsErr::Tight) if !self.has_two => Ok(()),
            Err(why) => wrong(format!("gc: {why:?}")),
        }
    }

    fn stat(&mut self) -> Goes {
        let (name, now) = (self.name(), self.model.now());
        let wanted = now.get(&name).map(Vec::len);
        match (
            self.call(now, |volume| volume.stat(name.as_bytes()))?,
            wanted,
        ) {
            (Ok(stat), Some(size)) if stat.size as usize == size => Ok(()),
            (Err(FsErr::NotFound), None) => Ok(()),
            (told, wanted) => wrong(format!("stat of {name}: {told:?}, not {wanted:?}")),
        }
    }

    // All files by `next`, with their bytes. Descriptors stay open.
    fn compare(&mut self) -> Goes {
        let now = self.model.now();
        match self.call(now.clone(), files_of)? {
            Ok(found) if found == now => Ok(()),
            Ok(found) => wrong(format!("files {:?}, not {:?}", sizes(&found), sizes(&now))),
            Err(why) => wrong(format!("listing: {why:?}")),
        }
    }

    /// One drawn call. With two free blocks it leaves two.
    pub fn step(&mut self) -> Goes {
        self.has_two = has_two(self.volume)?;
        self.call_drawn()?;
        match !self.has_two || has_two(self.volume)? {
            true => Ok(()),
            false => wrong("two blocks were free before the call, and aren't after it".into()),
        }
    }

    fn call_drawn(&mut self) -> Goes {
        match self.draw(64) {
            0..2 => self.create(),
            2..12 => self.open(),
            12..32 => self.write(),
            32..38 => self.read(),
            38..43 => self.seek(),
            43..45 => self.truncate(),
            45..51 => self.close(false),
            51..52 => self.close(true),
            52..54 => self.flush(),
            54..58 => self.remove(),
            58..60 => self.rename(),
            60..61 => self.collect(),
            61..63 => self.stat(),
            _ => self.compare(),
        }
    }
}

/// Whether two blocks are free.
pub fn has_two(volume: &mut Volume<'_, Chip>) -> Result<bool, End> {
    match volume.space() {
        Ok(space) => Ok(space.free_blocks >= 2),
        Err(why) => wrong(format!("space: {why:?}")),
    }
}

/// The sizes of files.
pub fn sizes(table: &Table) -> Vec<(&String, usize)> {
    table
        .iter()
        .map(|(name, file)| (name, file.len()))
        .collect()
}
