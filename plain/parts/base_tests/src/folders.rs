use rattle_host::assert;
#[allow(unused_imports)]
use rattle_host::prelude::*;

use rattle_host::test::Fail;
use spiffs::folder_core::{Folder, MemFolder};

// Whether file `i` has this name and these bytes, read whole and in two parts.
fn holds(folder: &mut MemFolder, i: u32, name: &[u8], bytes: &[u8]) -> bool {
    let Ok(count) = folder.count() else {
        return false;
    };
    if i >= count {
        return false;
    }
    let mut told = [0u8; 8];
    let Ok(n) = folder.name(i, &mut told) else {
        return false;
    };
    if n != name.len() || n > 8 || &told[..n] != name {
        return false;
    }
    let Ok(size) = folder.size(i) else {
        return false;
    };
    if size != bytes.len() as u64 || size > 8 {
        return false;
    }
    let mut whole = [0u8; 8];
    let into = &mut whole[..bytes.len()];
    if folder.read(i, 0, into).is_err() || *into != *bytes {
        return false;
    }
    let mut rest = [0u8; 8];
    let half = bytes.len() / 2;
    let into = &mut rest[half..bytes.len()];
    let answer = folder.read(i, half as u64, into);
    let wanted = &bytes[half..];
    answer.is_ok() && *into == *wanted
}

#[test]
fn files_of_one_name_are_told_in_their_order() {
    rattle_host::test::run(files_of_one_name_are_told_in_their_order_with)
}

fn files_of_one_name_are_told_in_their_order_with(rt: HostRuntime) -> Result<(), Fail> {
    let mut folder = MemFolder::new(rt.alloc());
    folder.add(b"a", b"hello")?;
    folder.add(b"a", b"again")?;
    assert!(rt; holds(&mut folder, 0, b"a", b"hello"));
    assert!(rt; holds(&mut folder, 1, b"a", b"again"));
    Ok(())
}
