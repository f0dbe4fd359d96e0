//! The numbers of volumes.

use liverymenhir::geometry::{Geometry, MagicKind};
use rattle_host::assert;
#[allow(unused_imports)]
use rattle_host::prelude::*;
use rattle_host::test::Fail;

#[test]
fn the_numbers_of_a_small_volume() {
    rattle_host::test::run(the_numbers_of_a_small_volume_with)
}

fn the_numbers_of_a_small_volume_with(rt: HostRuntime) -> Result<(), Fail> {
    let g = Geometry::new(256, 4096, 16, 4096, 0, MagicKind::Length)?;
    assert!(rt; (g.page(), g.block(), g.blocks()) == (256, 4096, 16));
    assert!(rt; (g.phys(), g.meta(), g.pages()) == (4096, 0, 256));
    assert!(rt; (g.per_block(), g.lookups(), g.entries()) == (16, 1, 15));
    assert!(rt; (g.body(), g.head_slots(), g.span_slots()) == (251, 105, 124));
    assert!(rt; (g.usable(), g.work_need()) == (240, 1375));
    assert!(rt; (g.scratch_need(), g.rows_need()) == (1119, 256));
    assert!(rt; (g.cache_need(), g.check_need()) == (264, 8448));
    assert!(rt; (g.magic_of(0), g.magic_of(1), g.magic_of(15)) == (0x0439, 0x0426, 0x0428));
    assert!(rt; g.writable() == Ok(()));
    let plain = Geometry::new(256, 4096, 16, 4096, 0, MagicKind::Plain)?;
    assert!(rt; (plain.magic_of(0), plain.magic_of(15)) == (0x0429, 0x0429));
    let long = Geometry::new(256, 65536, 4, 65536, 0, MagicKind::Length)?;
    assert!(rt; (long.lookups(), long.entries()) == (2, 254));
    Ok(())
}
