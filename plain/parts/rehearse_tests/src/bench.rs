//! Volumes in memory, and rehearsals and cut runs of scripts on them.

use liverymenhir::geometry::{Geometry, MagicKind};
use rattle_host::alloc::Global;
use script_rows::script_bench::{Bench, Fault, Told};
use spiffs::doubled_ids::{WORK, count_doubled};
use spiffs::plain_image::table_of;
use std::collections::BTreeMap;
use std::fmt::Write;

/// More programs, erases and replies than a script has.
const MOST: u64 = 10_000;

/// The status where the device failed.
const DEVICE_FAULT: u8 = 7;

/// A file.
#[derive(Clone, Debug, PartialEq)]
pub(crate) struct File {
    pub(crate) id: u16,
    pub(crate) kind: u8,
    pub(crate) name: Vec<u8>,
    pub(crate) bytes: Vec<u8>,
}

/// What a cut left: the number of the line whose call was under way, or of that behind the last one, the files, and how many ids are doubled.
#[derive(Clone, Debug)]
pub(crate) struct Cut {
    pub(crate) line: usize,
    pub(crate) files: Vec<File>,
    pub(crate) doubled: u32,
}

/// A volume and its image.
pub(crate) struct Trial {
    pub(crate) bench: Bench,
    pub(crate) image: Vec<u8>,
}

pub(crate) fn text_of(bytes: &[u8]) -> String {
    String::from_utf8(bytes.to_vec()).expect("text")
}

/// The lines of files, as a list prints them.
pub(crate) fn listing(files: &[File]) -> String {
    let mut text = String::new();
    for file in files {
        write!(text, "{} {} {} ", file.id, file.kind, file.bytes.len()).expect("memory");
        for byte in &file.name {
            match byte {
                b'%' => text.push_str("%25"),
                0x21..=0x7E => text.push(char::from(*byte)),
                _ => write!(text, "%{byte:02X}").expect("memory"),
            }
        }
        text.push('\n');
    }
    text
}

/// The bytes of the first of these files that is there.
pub(crate) fn first_of(names: &[&str], files: &[File]) -> Option<Vec<u8>> {
    let named = |name: &&str| files.iter().find(|file| file.name == name.as_bytes());
    names.iter().find_map(named).map(|file| file.bytes.clone())
}

// The numbers of the lines that are calls, and of what is behind them.
fn places(script: &str) -> Vec<usize> {
    let lines = || script.lines().enumerate();
    let is_call = |line: &str| !line.is_empty() && !line.starts_with('#');
    let calls = lines().filter(|(_, line)| is_call(line)).map(|(at, _)| at + 1);
    calls.chain([lines().count() + 1]).collect()
}

impl Trial {
    /// An empty volume with magics of its length.
    pub(crate) fn new(page: u32, block: u32, blocks: u32, meta: u32) -> Trial {
        let g = Geometry::new(page, block, blocks, block, meta, MagicKind::Length).expect("a volume");
        let bench = Bench::new(Global, g);
        let image = bench.formatted().expect("formatted").as_slice().to_vec();
        Trial { bench, image }
    }

    /// That volume once a script was run.
    pub(crate) fn after(mut self, script: &str) -> Trial {
        let ran = self.run(script, Fault::Nothing);
        assert_eq!(ran.status, 0, "{script}");
        self.image = ran.image.as_slice().to_vec();
        self
    }

    pub(crate) fn run(&self, script: &str, fault: Fault) -> Told {
        self.bench.run(&self.image, script.as_bytes(), fault).expect("a run")
    }

    /// The status of a rehearsal, and what it says. It leaves the chip as it is.
    pub(crate) fn rehearse(&self, script: &str, more: &str) -> (u8, String) {
        let words = format!("{}{more}", self.bench.words("rehearse").expect("memory").as_str());
        let told = self.bench.give(&words, &self.image, script.as_bytes(), Fault::Nothing).expect("a rehearsal");
        assert_eq!(told.image.as_slice(), self.image);
        (told.status, text_of(&told.said))
    }

    /// The tables that a rehearsal tells by number of the line, as lists, in order of their steps.
    pub(crate) fn tables(&self, script: &str) -> BTreeMap<usize, Vec<String>> {
        let (status, said) = self.rehearse(script, " tables");
        assert_eq!(status, 0, "{said}");
        let mut tables: BTreeMap<usize, Vec<String>> = BTreeMap::new();
        let mut line = 0;
        for text in said.lines() {
            let words: Vec<&str> = text.split(' ').collect();
            match words[..] {
                ["line", number, "step", step] => {
                    line = number.parse().expect("a number");
                    let steps = tables.entry(line).or_default();
                    assert_eq!(step, steps.len().to_string());
                    steps.push(String::new());
                }
                ["promises", _, "tables", count] => assert_eq!(count, tables.values().map(Vec::len).sum::<usize>().to_string()),
                _ => tables.get_mut(&line).and_then(|steps| steps.last_mut()).expect("a table").push_str(&format!("{text}\n")),
            }
        }
        tables
    }

    pub(crate) fn files(&self, image: &[u8]) -> Vec<File> {
        let records = table_of(Global, &self.bench.g, image).expect("memory");
        let file = |record: &spiffs::plain_image::Record| File {
            id: record.id,
            kind: record.kind,
            name: record.name.as_slice().to_vec(),
            bytes: record.bytes.as_slice().to_vec(),
        };
        records.iter().map(file).collect()
    }

    // How many ids have more than one header page.
    fn doubled(&self, image: &[u8]) -> u32 {
        count_doubled(&self.bench.g, image, &mut [0; WORK])
    }

    /// What is left where the power is cut inside each program, erase and reply of a run, done as each of the picks says.
    pub(crate) fn cuts(&self, script: &str, picks: &[u64]) -> Vec<Cut> {
        let places = places(script);
        let mut cuts = Vec::new();
        for passed in 0..MOST {
            for pick in picks {
                let ran = self.run(script, Fault::Power { passed, pick: *pick });
                if ran.status != DEVICE_FAULT {
                    assert_eq!(ran.status, 0);
                    return cuts;
                }
                let line = places[ran.lines()];
                let files = self.files(&ran.image);
                let doubled = self.doubled(&ran.image);
                cuts.push(Cut { line, files, doubled });
            }
        }
        panic!("the script has no end");
    }
}
