//! Volumes in memory, recorded runs on them, and verdicts.

use liverymenhir::fd_table::FdSlot;
use liverymenhir::geometry::{Geometry, MagicKind};
use liverymenhir::vol_mount::format;
use rattle_host::alloc::Global;
use rattle_host::prelude::{String as HostString, Vec as HostVec};
use spiffs::flash_trace::{Bytes, Event, HeldScript, Recorder, Verdict, check_trace};
use spiffs::folder_core::MemFolder;
use spiffs::nor_memory::{CallKind, MemBoard, MemSource};
use spiffs::tool_core::spiffs_tool;
use spiffs::tool_parts::Buffers;
use spiffs::trace_tool::{Traced, trace_tool};

/// How many descriptors the runs have.
pub(crate) const SLOTS: usize = 3;

/// An event of a trace, which can be copied and compared.
#[derive(Clone, Debug, PartialEq)]
pub(crate) enum Noted {
    Program {
        at: u32,
        asked: Vec<u8>,
        got: Vec<u8>,
    },
    Erase(u32),
    Say(Vec<u8>),
}

/// What the command `trace` did on a chip.
pub(crate) struct Rehearsed {
    pub(crate) status: u8,
    pub(crate) run: Option<u8>,
    pub(crate) said: String,
}

/// What is to fail in it: a call of the chip, or a read of the script.
#[derive(Clone, Copy)]
pub(crate) enum Fault {
    Nothing,
    Call(CallKind, u64),
    Script(u64),
}

/// What a run of a script did on an image.
pub(crate) struct Told {
    pub(crate) status: u8,
    pub(crate) said: Vec<u8>,
    pub(crate) image: Vec<u8>,
    pub(crate) events: Vec<Noted>,
}

/// A volume, its first image and a script.
pub(crate) struct Trial {
    pub(crate) g: Geometry,
    pub(crate) first: Vec<u8>,
    pub(crate) script: Vec<u8>,
}

pub(crate) fn program(at: u32, asked: &[u8], got: &[u8]) -> Noted {
    Noted::Program {
        at,
        asked: asked.to_vec(),
        got: got.to_vec(),
    }
}

pub(crate) fn say(piece: &str) -> Noted {
    Noted::Say(piece.as_bytes().to_vec())
}

pub(crate) fn legal(events: usize, replies: u32) -> Verdict {
    Verdict::Legal {
        events: events as u64,
        replies,
    }
}

pub(crate) fn bad_cut(at: usize) -> Verdict {
    Verdict::BadCut { at: at as u64 }
}

/// A volume of pages of 256 bytes and 16 blocks of 4,096.
pub(crate) fn small() -> Geometry {
    volume(256, 4096, 16, 0)
}

pub(crate) fn volume(page: u32, block: u32, blocks: u32, meta: u32) -> Geometry {
    Geometry::new(page, block, blocks, block, meta, MagicKind::Length).expect("a volume")
}

fn host_bytes(bytes: &[u8]) -> HostVec<u8> {
    HostVec::from_slice(Global, bytes).expect("memory")
}

fn board_of(g: &Geometry, image: &[u8]) -> MemBoard {
    MemBoard::new(Global, host_bytes(image), g.phys()).expect("a device")
}

/// The image of an empty volume.
pub(crate) fn formatted(g: &Geometry) -> Vec<u8> {
    let mut board = board_of(g, &vec![0xFF; (g.blocks() * g.block()) as usize]);
    format(g, &mut board).expect("a formatted device");
    board.image().to_vec()
}

fn noted(event: &Event) -> Noted {
    match event {
        Event::Program { at, asked, got } => program(*at, asked.as_slice(), got.as_slice()),
        Event::Erase { unit_ix } => Noted::Erase(*unit_ix),
        Event::Say { piece } => Noted::Say(piece.as_slice().to_vec()),
    }
}

fn event(noted: &Noted) -> Event {
    match noted {
        Noted::Program { at, asked, got } => Event::Program {
            at: *at,
            asked: Bytes::new(host_bytes(asked)),
            got: Bytes::new(host_bytes(got)),
        },
        Noted::Erase(unit_ix) => Event::Erase { unit_ix: *unit_ix },
        Noted::Say(piece) => Event::Say {
            piece: Bytes::new(host_bytes(piece)),
        },
    }
}

// The words of a command on a volume.
fn words_of(g: &Geometry, command: &str) -> Vec<HostString> {
    let line = format!(
        "{command} {} {} {} {} len chip",
        g.page(),
        g.block(),
        g.blocks(),
        g.meta()
    );
    line.split(' ')
        .map(|word| HostString::from_str(Global, word).expect("memory"))
        .collect()
}

// The memory that a command is lent.
struct Lent {
    work: Vec<u8>,
    slots: Vec<FdSlot>,
    cache: Vec<u8>,
    check: Vec<u8>,
    window: Vec<u8>,
    line: Vec<u8>,
}

impl Lent {
    fn new(g: &Geometry) -> Lent {
        Lent {
            work: vec![0u8; g.work_need() as usize],
            slots: vec![FdSlot::empty(); SLOTS],
            cache: vec![0u8; g.cache_need() as usize * 64],
            check: vec![0u8; g.check_need() as usize],
            window: vec![0u8; g.page() as usize],
            line: vec![0u8; 12288],
        }
    }

    fn buffers(&mut self) -> Buffers<'_> {
        Buffers {
            work: &mut self.work,
            slots: &mut self.slots,
            cache: &mut self.cache,
            check: &mut self.check,
            window: &mut self.window,
            line: &mut self.line,
        }
    }
}

impl Trial {
    pub(crate) fn new(g: Geometry, first: &[u8], script: &str) -> Trial {
        Trial {
            g,
            first: first.to_vec(),
            script: script.as_bytes().to_vec(),
        }
    }

    /// What `run` does, recorded.
    pub(crate) fn run(&self) -> Told {
        let g = &self.g;
        let mut recorder = Recorder::new(Global, board_of(g, &self.first));
        let mut source = HeldScript::new(host_bytes(&self.script));
        let mut lent = Lent::new(g);
        let mut folder = MemFolder::new(Global);
        let words = words_of(g, "run");
        let status = spiffs_tool(
            &words,
            &mut recorder,
            &mut source,
            &mut folder,
            &mut lent.buffers(),
        );
        assert!(!recorder.has_failed());
        Told {
            status,
            said: recorder.said().to_vec(),
            image: recorder.image().to_vec(),
            events: recorder.events().iter().map(noted).collect(),
        }
    }

    /// What the command `trace` does on a chip with these bytes behind the volume, which it leaves as it is.
    pub(crate) fn trace_with(&self, behind: &[u8], fault: Fault) -> Rehearsed {
        let g = &self.g;
        let chip = [&self.first[..], behind].concat();
        let mut board = board_of(g, &chip);
        let mut source = MemSource::new(host_bytes(&self.script));
        match fault {
            Fault::Nothing => {}
            Fault::Call(kind, nth) => board.fail_nth(kind, nth),
            Fault::Script(nth) => source.fail_nth(nth),
        }
        let mut lent = Lent::new(g);
        let words = words_of(g, "trace");
        let Traced { status, run } =
            trace_tool(Global, &words, &mut board, &mut source, &mut lent.buffers());
        assert_eq!(board.image(), chip);
        Rehearsed {
            status,
            run,
            said: String::from_utf8(board.said().to_vec()).expect("text"),
        }
    }

    pub(crate) fn trace(&self) -> Rehearsed {
        self.trace_with(&[], Fault::Nothing)
    }

    /// The verdict on these events, for so many descriptors.
    pub(crate) fn judge_with(&self, slots: u32, events: &[Noted]) -> Verdict {
        let events: Vec<Event> = events.iter().map(event).collect();
        check_trace(Global, &self.g, slots, &self.first, &self.script, &events).expect("memory")
    }

    pub(crate) fn judge(&self, events: &[Noted]) -> Verdict {
        self.judge_with(SLOTS as u32, events)
    }
}

/// The image that these events leave.
pub(crate) fn image_after(g: &Geometry, first: &[u8], events: &[Noted]) -> Vec<u8> {
    let mut image = first.to_vec();
    for event in events {
        match event {
            Noted::Program { at, got, .. } => {
                image[*at as usize..][..got.len()].copy_from_slice(got)
            }
            Noted::Erase(unit_ix) => {
                let unit = g.phys() as usize;
                image[*unit_ix as usize * unit..][..unit].fill(0xFF);
            }
            Noted::Say(_) => {}
        }
    }
    image
}
