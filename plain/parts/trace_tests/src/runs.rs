//! Recorded runs of drawn scripts, on empty volumes, on volumes that are nearly full, and on damaged ones.

use crate::traces::{Noted, Trial, bad_cut, formatted, image_after, legal, volume};
use liverymenhir::geometry::Geometry;

// Numbers that are drawn from a seed.
pub(crate) struct Draw(pub(crate) u64);

impl Draw {
    pub(crate) fn next(&mut self, below: u64) -> u64 {
        self.0 ^= self.0 << 13;
        self.0 ^= self.0 >> 7;
        self.0 ^= self.0 << 17;
        self.0 % below
    }

    fn of<'t>(&mut self, words: &[&'t str]) -> &'t str {
        words[self.next(words.len() as u64) as usize]
    }

    fn line(&mut self) -> String {
        let name = self.of(&["a", "b", "c", "dd", "/e"]);
        let other = self.of(&["a", "b", "c", "dd", "/e"]);
        let fd = 1 + self.next(3);
        match self.next(22) {
            0 => format!("create {name}"),
            1..=3 => format!(
                "open {name} {}",
                self.of(&["8", "12", "16", "20", "21", "22", "24", "28", "30", "60"])
            ),
            4..=6 => format!("write {fd} {}", self.of(&["x", "yz", "01234"])),
            7 | 8 => format!("fill {fd} {} {:02x}", self.next(900), self.next(256)),
            9 => format!(
                "seek {fd} {} {}",
                self.next(300),
                self.of(&["set", "cur", "end"])
            ),
            10 => format!("read {fd} {}", self.next(200)),
            11 => format!("truncate {fd} {}", self.next(400)),
            12 => format!("flush {fd}"),
            13 => format!("close {fd}"),
            14 => format!("remove {name}"),
            15 => format!("rename {name} {other}"),
            16 => format!("stat {name}"),
            17 => format!("tell {fd}"),
            18 => format!("fstat {fd}"),
            19 => format!("fremove {fd}"),
            20 => "gc".to_string(),
            _ => "info".to_string(),
        }
    }

    pub(crate) fn script(&mut self, lines: usize) -> String {
        (0..lines).map(|_| self.line() + "\n").collect()
    }

    // Some bytes of an image are changed.
    pub(crate) fn damage(&mut self, g: &Geometry, image: &mut [u8]) {
        for _ in 0..self.next(4) {
            let page =
                self.next(u64::from(g.blocks() * g.block() / g.page())) * u64::from(g.page());
            let at = (page + self.next(12)) as usize;
            image[at] &= self.next(256) as u8;
        }
    }
}

pub(crate) const VOLUMES: [(u32, u32, u32, u32); 3] =
    [(256, 4096, 16, 0), (256, 4096, 5, 4), (128, 2048, 8, 8)];

#[test]
fn recorded_runs_are_legal() {
    for (page, block, blocks, meta) in VOLUMES {
        let g = volume(page, block, blocks, meta);
        let mut draw = Draw(u64::from(blocks) + 12345);
        let mut image = formatted(&g);
        for _ in 0..6 {
            let trial = Trial::new(g, &image, &draw.script(40));
            let told = trial.run();
            assert_eq!(told.status, 0);
            assert_eq!(trial.judge(&told.events), legal(told.events.len(), 40));
            image = told.image;
        }
    }
}

#[test]
fn each_front_of_a_recorded_run_is_legal() {
    let g = volume(256, 4096, 5, 4);
    let trial = Trial::new(g, &formatted(&g), &Draw(5).script(15));
    let told = trial.run();
    let mut replies = 0;
    for (number, event) in told.events.iter().enumerate() {
        assert_eq!(trial.judge(&told.events[..number]), legal(number, replies));
        replies += u32::from(matches!(event, Noted::Say(_)));
    }
    assert_eq!(replies, 15);
}

#[test]
fn runs_on_damaged_images_are_legal_where_they_mount() {
    for (page, block, blocks, meta) in VOLUMES {
        let g = volume(page, block, blocks, meta);
        let mut draw = Draw(u64::from(page * blocks) + 4711);
        let mut image = formatted(&g);
        for _ in 0..15 {
            let told = Trial::new(g, &image, &draw.script(25)).run();
            let cut = draw.next(told.events.len() as u64 + 1) as usize;
            let mut torn = image_after(&g, &image, &told.events[..cut]);
            draw.damage(&g, &mut torn);
            let trial = Trial::new(g, &torn, &draw.script(12));
            let run = trial.run();
            let verdict = match run.status {
                0 => legal(run.events.len(), 12),
                3 => bad_cut(0),
                _ => legal(run.events.len(), 0),
            };
            assert_eq!(trial.judge(&run.events), verdict, "{}", run.status);
            image = told.image;
        }
    }
}

#[test]
fn a_reply_that_is_left_out_is_missed() {
    let g = volume(256, 4096, 5, 4);
    let trial = Trial::new(g, &formatted(&g), "tell 9\ncreate a\nstat b\ncreate b\n");
    let told = trial.run();
    // each of the four replies left out: the next one, which is another, is refused, and of the last one nothing is told
    let says: Vec<usize> = (0..told.events.len())
        .filter(|number| matches!(told.events[*number], Noted::Say(_)))
        .collect();
    assert_eq!(says.len(), 4);
    for (index, left_out) in says.iter().enumerate() {
        let mut events = told.events.clone();
        events.remove(*left_out);
        let verdict = match index {
            // the programs of the next call come where the call before isn't answered
            0 => bad_cut(says[1] - 1),
            1 => bad_cut(says[2]),
            2 => bad_cut(says[3] - 1),
            _ => legal(events.len(), 3),
        };
        assert_eq!(trial.judge(&events), verdict, "reply {index}");
    }
}
