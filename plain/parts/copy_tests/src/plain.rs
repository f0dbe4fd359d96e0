//! Files as plain lists, and what a copy is to make of them.

use liverymenhir::geometry::Geometry;

/// A file. (The id of one that is still to be made counts for nothing.)
#[derive(Clone, Debug, PartialEq, Eq)]
pub(crate) struct Plain {
    pub(crate) id: u16,
    pub(crate) name: Vec<u8>,
    pub(crate) kind: u8,
    pub(crate) meta: Vec<u8>,
    pub(crate) bytes: Vec<u8>,
}

/// How a copy is to end.
#[derive(Clone, Copy, Debug, PartialEq, Eq)]
pub(crate) enum Wanted {
    /// So many are copied, and so many are there.
    Done(u32, u32),
    /// The source's file at that place has the working name.
    Bad(u32),
    /// A table of so many index pages and data pages has no room.
    Full(u128, u128),
}

/// The name of a file while it is copied.
pub(crate) const WORKING: &[u8] = &[1];

/// The file of a name.
pub(crate) fn named<'t>(files: &'t [Plain], name: &[u8]) -> Option<&'t Plain> {
    files.iter().find(|f| f.name == name)
}

/// Whether a file is a copy of a record.
pub(crate) fn is_copy(alike: bool, record: &Plain, file: &Plain) -> bool {
    file.kind == 1 && file.bytes == record.bytes && (!alike || file.meta == record.meta)
}

// The least id that no file has.
fn least_id(files: &[Plain]) -> u16 {
    (1..).find(|id| files.iter().all(|f| f.id != *id)).expect("an id")
}

// The copy of a record on a volume, under an id.
fn copy_of(alike: bool, record: &Plain, meta: usize, id: u16) -> Plain {
    Plain {
        id,
        name: record.name.clone(),
        kind: 1,
        meta: if alike {
            record.meta.clone()
        } else {
            vec![0xFF; meta]
        },
        bytes: record.bytes.clone(),
    }
}

/// Whether a name has what one copy under way may leave of it: what it had at first; where there is a record, a copy too, or nothing while the
/// working name has the copy.
pub(crate) fn is_under(alike: bool, source: &[Plain], first: &[Plain], now: &[Plain]) -> bool {
    let is_copied = |record: &Plain, file: Option<&Plain>| file.is_some_and(|file| is_copy(alike, record, file));
    let names = source.iter().chain(first).chain(now).map(|f| &f.name);
    names.filter(|name| *name != WORKING).all(|name| {
        let here = named(now, name);
        here == named(first, name)
            || named(source, name).is_some_and(|record| match here {
                None => is_copied(record, named(now, WORKING)),
                Some(_) => is_copied(record, here),
            })
    })
}

/// Whether each record has its copy, no file has the working name, and each other name has what it had.
pub(crate) fn is_done(alike: bool, source: &[Plain], first: &[Plain], now: &[Plain]) -> bool {
    let names = source.iter().chain(first).chain(now).map(|f| &f.name);
    named(now, WORKING).is_none()
        && names.filter(|name| *name != WORKING).all(|name| {
            let here = named(now, name);
            match named(source, name) {
                None => here == named(first, name),
                Some(record) => here.is_some_and(|file| is_copy(alike, record, file)),
            }
        })
}

/// Whether a copy stopped at some record: those before it have their copies, no file has the working name, and all others have what they had.
pub(crate) fn is_part(alike: bool, source: &[Plain], first: &[Plain], now: &[Plain]) -> bool {
    (0..=source.len()).any(|count| is_done(alike, &source[..count], first, now))
}

fn up(a: u128, b: u128) -> u128 {
    a.div_ceil(b)
}

// Index pages and data pages of files of these sizes.
fn pages(g: &Geometry, sizes: &[usize]) -> (u128, u128) {
    let page = u128::from(g.page);
    let head = (page - 45 - u128::from(g.meta)) / 2;
    let span = (page - 8) / 2;
    let mut all = (0, 0);
    for size in sizes {
        let data = up(*size as u128, page - 5);
        all.1 += data;
        all.0 += 1 + if data > head { up(data - head, span) } else { 0 };
    }
    all
}

// Whether files of these sizes have room.
fn has_room(g: &Geometry, sizes: &[usize]) -> Result<(), Wanted> {
    let (index, data) = pages(g, sizes);
    let entries = u128::from(g.entries());
    if up(index + 1, entries) + up(data + 1, entries) + 2 <= u128::from(g.blocks) {
        return Ok(());
    }
    Err(Wanted::Full(index, data))
}

/// Whether a volume has room for its files.
pub(crate) fn has_room_for(g: &Geometry, files: &[Plain]) -> bool {
    has_room(g, &sizes_of(files, None)).is_ok()
}

fn sizes_of(files: &[Plain], more: Option<usize>) -> Vec<usize> {
    files.iter().map(|f| f.bytes.len()).chain(more).collect()
}

// Copies a record, step by step.
fn copy_record(g: &Geometry, alike: bool, record: &Plain, now: &mut Vec<Plain>) -> Result<(), Wanted> {
    let body = g.page as usize - 5;
    for end in 0..=record.bytes.len() {
        if end % body == 0 || end == record.bytes.len() {
            has_room(g, &sizes_of(now, Some(end)))?;
        }
    }
    let id = least_id(now);
    now.retain(|f| f.name != record.name);
    now.push(copy_of(alike, record, g.meta as usize, id));
    has_room(g, &sizes_of(now, None))
}

/// What a copy of records in order makes of the files of a volume, and how it is to end.
pub(crate) fn copied(g: &Geometry, alike: bool, source: &[Plain], first: &[Plain]) -> (Wanted, Vec<Plain>) {
    let mut now = first.to_vec();
    if let Err(full) = has_room(g, &sizes_of(&now, None)) {
        return (full, now);
    }
    if let Some(at) = source.iter().position(|f| f.name == WORKING) {
        return (Wanted::Bad(at as u32), now);
    }
    now.retain(|f| f.name != WORKING);
    let (mut copies, mut kept) = (0, 0);
    for record in source {
        if named(&now, &record.name).is_some_and(|file| is_copy(alike, record, file)) {
            kept += 1;
        } else if let Err(full) = copy_record(g, alike, record, &mut now) {
            return (full, now);
        } else {
            copies += 1;
        }
    }
    (Wanted::Done(copies, kept), now)
}
