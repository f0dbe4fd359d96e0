//! A volume between two calls, and the tables that a power cut may leave.

use liverymenhir::geometry::{Geometry, MagicKind};
use liverymenhir::table_model::{Call, FsErr};
use rattle_host::alloc::Global;
use rattle_host::assert;
#[allow(unused_imports)]
use rattle_host::prelude::*;
use rattle_host::process::Abort;
use rattle_host::test::Fail;
use spiffs::plain_table::{PlainFile, PlainMoment, Said, are_same, cuts_file, is_refusal};

// A volume without a file, with two descriptors.
fn empty_volume(alloc: Global) -> Result<PlainMoment, Fail> {
    let g = Geometry::new(256, 4096, 16, 4096, 0, MagicKind::Length)?;
    let files: Vec<PlainFile> = Vec::new(alloc);
    Ok(PlainMoment::first(alloc, g, files.as_slice(), 2)?)
}

fn open(flags: u32) -> Call<'static> {
    Call::OpenFile { name: b"a", flags }
}

#[test]
fn a_write_that_waits_may_be_lost_until_a_flush() {
    rattle_host::test::run(a_write_that_waits_may_be_lost_until_a_flush_with)
}

fn a_write_that_waits_may_be_lost_until_a_flush_with(rt: HostRuntime) -> Result<(), Fail> {
    let none: Vec<Vec<PlainFile>> = Vec::new(rt.alloc());
    let new = empty_volume(rt.alloc())?;
    let opened = new.after(true, &open(28))?;
    assert!(rt;
        opened.steps.len() == 1 && opened.next.may_leave(none.as_slice(), opened.next.files())
    );
    assert!(rt; !opened.next.may_leave(none.as_slice(), new.files()));
    let wrote = opened.next.after(
        true,
        &Call::Write {
            fd: 1,
            bytes: b"hello",
        },
    )?;
    assert!(rt; matches!(wrote.said, Said::Number(5)) && wrote.steps.len() == 1);
    assert!(rt; wrote.next.may_leave(none.as_slice(), opened.next.files()));
    assert!(rt; wrote.next.may_leave(none.as_slice(), wrote.next.files()));
    assert!(rt; !wrote.next.may_leave(none.as_slice(), new.files()));
    let flushed = wrote.next.after(true, &Call::Flush { fd: 1 })?;
    assert!(rt; !flushed.next.may_leave(none.as_slice(), opened.next.files()));
    assert!(rt; are_same(flushed.next.files(), wrote.next.files()));
    let direct = flushed.next.after(true, &open(48))?;
    let more = direct
        .next
        .after(true, &Call::Write { fd: 2, bytes: b"J" })?;
    assert!(rt; !more.next.may_leave(none.as_slice(), flushed.next.files()));
    assert!(rt; !are_same(more.next.files(), flushed.next.files()));
    Ok(())
}

#[test]
fn a_write_has_a_step_at_each_page_end_and_at_its_own() {
    rattle_host::test::run(a_write_has_a_step_at_each_page_end_and_at_its_own_with)
}

fn a_write_has_a_step_at_each_page_end_and_at_its_own_with(rt: HostRuntime) -> Result<(), Fail> {
    let opened = empty_volume(rt.alloc())?.after(true, &open(28))?;
    let fill = Call::Fill {
        fd: 1,
        count: 600,
        byte: 0x61,
    };
    let filled = opened.next.after(true, &fill)?;
    let mut sizes = [0; 3];
    for (size, table) in sizes.iter_mut().zip(filled.steps.iter()) {
        for file in table.iter() {
            *size = file.bytes.len();
        }
    }
    assert!(rt;
        filled.steps.len() == 3 && sizes == [251, 502, 600],
        "{:?}",
        sizes
    );
    assert!(rt;
        opened
            .next
            .may_leave(filled.steps.as_slice(), opened.next.files())
    );
    assert!(rt;
        opened
            .next
            .may_leave(filled.steps.as_slice(), filled.next.files())
    );
    Ok(())
}

#[test]
fn a_refused_call_has_no_step() {
    rattle_host::test::run(a_refused_call_has_no_step_with)
}

fn a_refused_call_has_no_step_with(rt: HostRuntime) -> Result<(), Fail> {
    let new = empty_volume(rt.alloc())?;
    let tight = new.after(false, &Call::Create { name: b"a" })?;
    assert!(rt; matches!(tight.said, Said::Refusal(FsErr::Tight)) && is_refusal(&tight.said));
    assert!(rt; tight.steps.is_empty() && tight.next.files().is_empty());
    assert!(rt; new.has_index_room()?);
    assert!(rt;
        cuts_file(&Call::Truncate { fd: 1, size: 0 })
            && cuts_file(&open(18))
            && !cuts_file(&open(16))
    );
    Ok(())
}
