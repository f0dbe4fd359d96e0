//! What a folder of the host has that goes onto no volume.

use liverymenhir::geometry::{Geometry, MagicKind};
use rattle_host::alloc::AllocError;
use rattle_host::assert;
use rattle_host::format;
#[allow(unused_imports)]
use rattle_host::prelude::*;
use rattle_host::test::Fail;
use rattle_host::{fs, process};
use spiffs::host_edge::StdFolder;
use spiffs::folder_plan::{Refusal, refusal_of};

// A folder that only this process uses.
fn path_for(rt: &HostRuntime, words: &str) -> Result<String, AllocError> {
    format!(in rt.alloc(); "/tmp/liverymenhir-{}.{words}", process::id(rt.process()))
}

// Makes an empty file of a folder.
fn make_in(rt: &HostRuntime, folder: &str, name: &str) -> Result<(), Fail> {
    let path = format!(in rt.alloc(); "{folder}/{name}")?;
    fs::write(rt, path.as_str(), "")?;
    Ok(())
}

#[test]
fn what_is_no_plain_file_is_told() {
    rattle_host::test::run(what_is_no_plain_file_is_told_with)
}

fn what_is_no_plain_file_is_told_with(rt: HostRuntime) -> Result<(), Fail> {
    let path = path_for(&rt, "passed")?;
    let path = path.as_str();
    fs::create_dir(&rt, path)?;
    make_in(&rt, path, "a")?;
    let inner = format!(in rt.alloc(); "{path}/inner")?;
    fs::create_dir(&rt, inner.as_str())?;
    let folder = StdFolder::new(&rt, rt.alloc(), path)?;
    let passed = folder.passed_over().first().ok_or("nothing")?;
    assert!(rt; passed.is_folder && passed.path.as_str() == inner.as_str());
    assert!(rt; folder.passed_over().len() == 1);
    assert!(rt; folder.bad_name().is_none());
    fs::remove_dir_all(&rt, path)?;
    Ok(())
}

#[test]
fn what_is_wrong_with_a_name_is_told() {
    rattle_host::test::run(what_is_wrong_with_a_name_is_told_with)
}

fn what_is_wrong_with_a_name_is_told_with(rt: HostRuntime) -> Result<(), Fail> {
    let g = Geometry::new(256, 4096, 16, 4096, 0, MagicKind::Length)?;
    for (name, at, why) in [
        ("%00", 0, "its name holds a zero byte"),
        (
            "12345678901234567890123456789012",
            0,
            "its name has 32 bytes, and 31 at most go",
        ),
        ("%42", 1, "has the same name"),
    ] {
        let path = path_for(&rt, "names")?;
        let path = path.as_str();
        fs::create_dir(&rt, path)?;
        make_in(&rt, path, "B")?;
        make_in(&rt, path, name)?;
        let mut folder = StdFolder::new(&rt, rt.alloc(), path)?;
        let told = folder.bad_name().ok_or("none")?.to_string_by(rt.alloc())?;
        assert!(rt; told.ends_with(why));
        let refusal = refusal_of(&g, &mut folder);
        assert!(rt; refusal == Ok(Some(Refusal::BadNames { at })));
        fs::remove_dir_all(&rt, path)?;
    }
    Ok(())
}
