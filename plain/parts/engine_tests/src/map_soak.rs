//! Drawn calls on two volumes, of which one has a map: it stays right, and all else is as without it.

use crate::bench::Memory;
use crate::map_numbers::{is_gone, is_right};
use crate::steps::{Step, fail_read, follow};
use liverymenhir::geometry::{Geometry, MagicKind};
use liverymenhir::nor_core::draw;
use liverymenhir::table_model::{Call, Whence};
use liverymenhir::vol_mount::{accept, format};
use liverymenhir::volume::{MapErr, Told, Volume};
use rattle_host::alloc::Global;
use rattle_host::assert;
#[allow(unused_imports)]
use rattle_host::prelude::*;
use rattle_host::process::Abort;
use rattle_host::test::Fail;
use rattle_host::vec;
use spiffs::nor_memory::MemBoard;

// The names that are drawn. The last one is only given by a rename, and by an opening of it.
const NAMES: [&[u8]; 4] = [b"a", b"b", b"c", b"d"];

// The flags of drawn openings: of reading, of writing too, directly, at the end, to make the file, to empty it.
const FLAGS: [u32; 16] = [
    28, 28, 28, 29, 29, 29, 61, 61, 61, 60, 60, 24, 24, 25, 8, 26,
];

// The spans for whose numbers bytes are lent.
const SPANS: u32 = 10;

// Which call is drawn, and of what.
#[derive(Clone, Copy)]
struct Choice {
    kind: u64,
    name: &'static [u8],
    other: &'static [u8],
    fd: u16,
    flags: u32,
    /// How many bytes: few, or of three times once many.
    count: u32,
    /// A size, or an offset.
    place: u32,
}

fn name_at(number: u64) -> &'static [u8] {
    NAMES[(number % 4) as usize]
}

fn choose(x: &mut u64) -> Choice {
    let many = draw(x) % 3 == 0;
    let count = (draw(x) % if many { 1000 } else { 90 }) as u32;
    let place = (draw(x) % if many { 5000 } else { 900 }) as u32;
    Choice {
        kind: draw(x) % 64,
        name: name_at(draw(x) % 3),
        other: name_at(draw(x)),
        fd: (draw(x) % 4) as u16,
        flags: FLAGS[(draw(x) % 16) as usize],
        count,
        place,
    }
}

// A call through a descriptor.
fn call_open<'t>(choice: &Choice, bytes: &'t [u8; 1000]) -> Call<'t> {
    let fd = choice.fd;
    let offset = i64::from(choice.place);
    match choice.kind {
        0..=13 => Call::Write {
            fd,
            bytes: bytes.get(..choice.count as usize).unwrap_or(&[]),
        },
        14..=19 => Call::Fill {
            fd,
            count: choice.count,
            byte: b'f',
        },
        20..=23 => Call::Seek {
            fd,
            offset,
            from: Whence::Set,
        },
        24..=27 => Call::Seek {
            fd,
            offset: 40 - offset,
            from: Whence::End,
        },
        28 | 29 => Call::Read {
            fd,
            count: choice.count,
        },
        30 | 31 => Call::Truncate {
            fd,
            size: choice.place.saturating_mul(3),
        },
        32 | 33 => Call::Flush { fd },
        34 | 35 => Call::Close { fd },
        36 => Call::FStat { fd },
        37 => Call::FSetMeta { fd, meta: b"meta" },
        _ => Call::Tell { fd },
    }
}

// A call by a name, or of the volume.
fn call_named(choice: &Choice) -> Call<'static> {
    let name = choice.name;
    match choice.kind {
        40..=55 => Call::OpenFile {
            name: if choice.kind == 40 {
                choice.other
            } else {
                name
            },
            flags: choice.flags,
        },
        56 => Call::Remove { name },
        57 => Call::Rename {
            old_name: choice.other,
            new_name: name,
        },
        58 => Call::SetMeta { name, meta: b"" },
        59 => Call::FRemove { fd: choice.fd },
        60 | 61 => Call::Gc,
        62 => Call::Create { name: choice.other },
        _ => Call::GetInfo,
    }
}

// Whether two volumes told the same.
fn is_same(one: &Told, other: &Told) -> bool {
    match (one, other) {
        (Told::Done, Told::Done) | (Told::NoMore, Told::NoMore) => true,
        (Told::Number(x), Told::Number(y)) | (Told::Bytes(x), Told::Bytes(y)) => x == y,
        (Told::File(x), Told::File(y)) => {
            x.id == y.id && x.size == y.size && *x.name.as_slice() == *y.name.as_slice()
        }
        (Told::Room(x), Told::Room(y)) => x == y,
        (Told::Refusal(x), Told::Refusal(y)) => x == y,
        _ => false,
    }
}

// Does a call that reads or fills at most 1,000 bytes.
fn answer(volume: &mut Volume<'_, MemBoard>, call: &Call<'_>, into: &mut [u8; 1000]) -> Told {
    match *call {
        Call::Read { count, .. } | Call::Fill { count, .. } if count > 1000 => Told::NoMore,
        _ => volume.answer(call, into),
    }
}

// Does a call on both volumes. They tell the same, with the same bytes, and leave the same bytes on their chips.
fn ask(
    rt: &impl Abort,
    a: &mut Volume<'_, MemBoard>,
    b: &mut Volume<'_, MemBoard>,
    call: &Call<'_>,
    into: &mut [u8; 1000],
) -> Told {
    let mut other = [0u8; 1000];
    into.fill(0);
    let told = answer(a, call, into);
    assert!(rt; is_same(&told, &answer(b, call, &mut other)) && *into == other);
    assert!(rt; a.nor().image() == b.nor().image());
    told
}

// The map of the first volume is right, or there is none, since its file is gone.
fn look(rt: &impl Abort, a: &Volume<'_, MemBoard>, g: &Geometry, id: u16, first: u16) {
    if a.map.used {
        assert!(rt; a.map.id == id && a.map.first == first);
        assert!(rt; is_right(a, g, SPANS));
    } else {
        assert!(rt; id == 0 || is_gone(a, g, id));
    }
}

// A drawn call on both volumes, and a look at the map.
fn call_drawn(
    rt: &impl Abort,
    a: &mut Volume<'_, MemBoard>,
    b: &mut Volume<'_, MemBoard>,
    g: &Geometry,
    x: &mut u64,
) {
    let was = a.map;
    let choice = choose(x);
    let bytes = [(draw(x) % 256) as u8; 1000];
    let call = if choice.kind < 40 {
        call_open(&choice, &bytes)
    } else {
        call_named(&choice)
    };
    ask(rt, a, b, &call, &mut [0; 1000]);
    look(rt, a, g, was.id, was.first);
}

// Maps the file of a name from a drawn span on, in the place of the one that is mapped, if there is such a file.
fn map_drawn<'b>(
    rt: &impl Abort,
    a: &mut Volume<'b, MemBoard>,
    b: &mut Volume<'_, MemBoard>,
    g: &Geometry,
    x: &mut u64,
) {
    let name = name_at(draw(x));
    let first = (draw(x) % 8 * (draw(x) % 2)) as u16;
    let Told::File(stat) = ask(rt, a, b, &Call::StatName { name }, &mut [0; 1000]) else {
        return;
    };
    let lent = a.detach_map();
    assert!(rt; lent.is_some());
    if let Some(numbers) = lent {
        assert!(rt; numbers.len() == 2 * SPANS as usize);
        assert!(rt; a.attach_map_of(stat.id, first, numbers).is_ok());
        look(rt, a, g, stat.id, first);
    }
}

// In how many data pages so many bytes from a place on lie, if the map has room for all of them.
fn pages_of(a: &Volume<'_, MemBoard>, g: &Geometry, at: u32, count: u32) -> Option<u64> {
    let mut met = 0u64;
    let mut last = None;
    for i in 0..count {
        let span = at.saturating_add(i) / g.body();
        if last != Some(span) {
            met = met.saturating_add(1);
            last = Some(span);
        }
        if span.wrapping_sub(u32::from(a.map.first)) >= SPANS {
            return None;
        }
    }
    Some(met)
}

// Reads through the map, and through a descriptor of its file; where there is no map, one is drawn. Answers whether bytes were read.
fn read_drawn<'b>(
    rt: &impl Abort,
    a: &mut Volume<'b, MemBoard>,
    b: &mut Volume<'_, MemBoard>,
    g: &Geometry,
    x: &mut u64,
) -> bool {
    assert!(rt; a.settle() == b.settle());
    let mut bytes = [0u8; 1000];
    if !a.map.used {
        assert!(rt; a.read_map(0, &mut bytes) == Err(MapErr::NoMap));
        map_drawn(rt, a, b, g, x);
        return false;
    }
    let map = a.map;
    let at = (draw(x) % (u64::from(map.size) + 20)) as u32;
    let len = (draw(x) % 900 * (draw(x) % 2) + draw(x) % 20) as u32;
    let given = map.size.saturating_sub(at).min(len);
    let Some(into) = bytes.get_mut(..len as usize) else {
        return false;
    };
    let Some(met) = pages_of(a, g, at, given) else {
        assert!(rt; a.read_map(at, into) == Err(MapErr::NotMapped));
        return false;
    };
    // one page more may not be read
    fail_read(a, met.saturating_add(1));
    assert!(rt; a.read_map(at, into) == Ok(given));
    fail_read(a, 0);
    let mut told = [0u8; 1000];
    ask(rt, a, b, &Call::Close { fd: 3 }, &mut told);
    let next = ask(
        rt,
        a,
        b,
        &Call::Next {
            after: map.id.saturating_sub(1),
        },
        &mut told,
    );
    let Told::File(stat) = next else {
        return false;
    };
    assert!(rt; stat.id == map.id && stat.size == map.size);
    let open = Call::OpenFile {
        name: stat.name.as_slice(),
        flags: 8,
    };
    let Told::Number(fd) = ask(rt, a, b, &open, &mut told) else {
        return false;
    };
    let fd = fd as u16;
    let seek = Call::Seek {
        fd,
        offset: i64::from(at),
        from: Whence::Set,
    };
    if let Told::Number(_) = ask(rt, a, b, &seek, &mut told) {
        let read = Call::Read { fd, count: len };
        assert!(rt; matches!(ask(rt, a, b, &read, &mut told), Told::Bytes(n) if n == given));
        assert!(rt; told == bytes);
    }
    ask(rt, a, b, &Call::Close { fd }, &mut told);
    look(rt, a, g, map.id, map.first);
    given > 0
}

// So many turns on two empty volumes of a geometry. Answers how often bytes were read.
fn soak(rt: &impl Abort, alloc: Global, g: &Geometry, seed: u64, turns: u32) -> Result<u32, Fail> {
    let size = g.blocks() as usize * g.block() as usize;
    let unit = g.phys();
    if unit == 0 || size % unit as usize != 0 || size > 0x10_0000 {
        return Err("a chip of another size".into());
    }
    let mut board = MemBoard::new(alloc, vec![in alloc; 0xFFu8; size]?, unit)?;
    let mut other = MemBoard::new(alloc, vec![in alloc; 0xFFu8; size]?, unit)?;
    format(g, &mut board)?;
    format(g, &mut other)?;
    let mut memory = Memory::with_slots(alloc, g, 3)?;
    let mut more = Memory::with_slots(alloc, g, 3)?;
    let mut numbers = [7u8; 2 * SPANS as usize];
    let (lent, lent_too) = (memory.lend(), more.lend());
    accept(g, &board, &lent)?;
    accept(g, &other, &lent_too)?;
    let mut a = Volume::new(*g, &mut board, lent);
    let mut b = Volume::new(*g, &mut other, lent_too);
    let begin = [
        Step::Starts(g.blocks()),
        Step::Opens(b"a", 29, Ok(1)),
        Step::Writes(1, &[b'a'; 1000], Ok(1000)),
        Step::Opens(b"b", 29, Ok(2)),
        Step::Writes(2, &[b'b'; 2000], Ok(2000)),
        Step::Creates(b"c", Ok(())),
    ];
    follow(rt, &mut a, &begin);
    follow(rt, &mut b, &begin);
    assert!(rt; a.attach_map_of(1, 0, &mut numbers).is_ok());
    let mut x = seed;
    let mut read = 0u32;
    for _ in 0..turns {
        match draw(&mut x) % 16 {
            0 => map_drawn(rt, &mut a, &mut b, g, &mut x),
            1..=4 => {
                if read_drawn(rt, &mut a, &mut b, g, &mut x) {
                    read = read.saturating_add(1);
                }
            }
            _ => call_drawn(rt, &mut a, &mut b, g, &mut x),
        }
    }
    Ok(read)
}

#[test]
fn a_map_stays_right_through_drawn_calls() {
    rattle_host::test::run(a_map_stays_right_through_drawn_calls_with)
}

fn a_map_stays_right_through_drawn_calls_with(rt: HostRuntime) -> Result<(), Fail> {
    // of the first, a header page names nine data pages
    for (page, block, blocks, unit, meta, magic) in [
        (128, 2048, 6, 1024, 64, MagicKind::Length),
        (256, 4096, 5, 4096, 0, MagicKind::Length),
        (512, 8192, 4, 8192, 4, MagicKind::Plain),
    ] {
        let g = Geometry::new(page, block, blocks, unit, meta, magic)?;
        let read = soak(&rt, rt.alloc(), &g, u64::from(page), 1000)?;
        assert!(rt; read > 60);
    }
    Ok(())
}
