//! What the files are, and what they may be after a cut.

use std::collections::BTreeMap;

/// The bytes of each file, by its name.
pub type Table = BTreeMap<String, Vec<u8>>;

/// Whether a volume of pages of 256 bytes and so many blocks has room for these files: their index pages and their data pages, each kind and one more
/// in blocks of its own, leave two blocks.
pub fn has_room(blocks: usize, table: &Table) -> bool {
    let (mut index, mut data) = (1, 1);
    for file in table.values() {
        let pages = file.len().div_ceil(251);
        index += 1 + pages.saturating_sub(105).div_ceil(124);
        data += pages;
    }
    index.div_ceil(15) + data.div_ceil(15) + 2 <= blocks
}

/// Bytes that are written to a file.
#[derive(Clone, Debug)]
pub struct Write {
    pub name: String,
    pub at: usize,
    pub bytes: Vec<u8>,
}

impl Write {
    /// Writes the first bytes of it.
    pub fn put(&self, count: usize, table: &mut Table) {
        let file = table.get_mut(&self.name).expect("a file");
        let end = self.at + count;
        file.resize(file.len().max(end), 0);
        file[self.at..end].copy_from_slice(&self.bytes[..count]);
    }
}

/// The files on the chip for sure, and the writes since then, which may wait.
#[derive(Default)]
pub struct Model {
    pub sure: Table,
    pub waiting: Vec<Write>,
}

impl Model {
    /// The files as all calls left them.
    pub fn now(&self) -> Table {
        let mut table = self.sure.clone();
        for write in &self.waiting {
            write.put(write.bytes.len(), &mut table);
        }
        table
    }

    /// All is on the chip, and the files are these.
    pub fn settle(&mut self, table: Table) {
        self.sure = table;
        self.waiting.clear();
    }

    /// Whether a cut may have left these files: those that are sure, with the writes that wait and that of the call up to some end of a part;
    /// or with all of them, and what another call leaves.
    pub fn allows(&self, body: usize, write: Option<&Write>, after: &Table, found: &Table) -> bool {
        let mut table = self.sure.clone();
        if table == *found || after == found {
            return true;
        }
        for write in self.waiting.iter().chain(write) {
            let old = table[&write.name].len();
            let sure = self.sure[&write.name].len();
            for count in 1..=write.bytes.len() {
                let end = write.at + count;
                if end % body == 0 || end == old || end == sure || count == write.bytes.len() {
                    write.put(count, &mut table);
                    if table == *found {
                        return true;
                    }
                }
            }
        }
        false
    }
}
