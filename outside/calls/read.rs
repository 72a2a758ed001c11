//! Read.

use crate::bits::{self, some_file, spoil_file};
use crate::calls::{block, tariff, withdraw, write, write::Write};
use crate::comparing::{demand, expect, Call, Kind, Seen, Uses};
use crate::lent::{Book, Lent, Place, Rng};
use crate::plain::files::{self, file_of, old_file_of, MARK, OLD_MARK};
use crate::plain::{seven, Study};
use crate::random::some_study;
use crate::refusals::{at_once, Fault};
use crate::runs::Run;
use crate::samples::{full_study, known_study, line_study};

#[rustfmt::skip]
extern "C" {
    fn tides_read(
        record: *mut u16, record_len: usize,
        distances: *mut u32, distances_len: usize,
        settings: *mut u8, settings_len: usize,
        file: *const u8, file_len: usize,
    ) -> u32;
}

#[derive(Clone)]
pub struct Read {
    pub file: Lent<u8>,
}

const OLD: &str = "of mark 54";
const NEW: &str = "of mark 55";
const TWIN: &str = "of a file that holds a twin";

pub static KIND: Kind = Kind {
    name: "Read",
    reasons: &[1, 8, 9, 10, 2, 3, 11, 5, 7],
    uses: Uses::Replaces,
    counted: &[OLD, NEW, TWIN],
    often: |_, _| 4,
    propose,
    known: |rng| Box::new(Read::of(rng, &file_of(&known_study()))),
    groups: &[
        ("worked cases", worked),
        ("four tides", four_tides),
        ("both marks", |s, r| both_marks(s, r, 60)),
        ("120 tides", longest),
        ("random files", |s, r| random_files(s, r, 25_000)),
    ],
    at_once: reasons,
};

impl Read {
    pub fn of(rng: &mut Rng, file: &[u8]) -> Read {
        Read { file: Lent::exact(rng, file) }
    }
}

fn propose(rng: &mut Rng, run: &Run) -> Box<dyn Call> {
    let file = match run.files.len() {
        0 => some_file(rng),
        files => run.files[rng.below(files)].0.clone(),
    };
    Box::new(Read::of(rng, &file))
}

impl Call for Read {
    fn kind(&self) -> &'static Kind {
        &KIND
    }

    #[rustfmt::skip]
    fn ask_library(&mut self, b: &mut Book) -> u32 {
        unsafe {
            tides_read(
                b.record.ptr(), b.record.len, b.distances.ptr(), b.distances.len,
                b.settings.ptr(), b.settings.len, self.file.ptr(), self.file.len,
            )
        }
    }

    fn ask_plain(&mut self, book: &mut Book) -> u32 {
        files::read(&mut book.memory(), self.file.part())
    }

    fn places(&mut self) -> Vec<Place<'_>> {
        vec![Place { name: "file", short: 8, lent: &mut self.file }]
    }

    fn spoil(&mut self, rng: &mut Rng, _: &Book) {
        let mut bytes = self.file.part().to_vec();
        spoil_file(rng, &mut bytes);
        if rng.one_in(12) {
            bytes = (0..rng.within(0, 60)).map(|_| rng.next() as u8).collect();
            if !bytes.is_empty() && rng.one_in(2) {
                bytes[0] = rng.pick(&[MARK, OLD_MARK]);
            }
        }
        self.file = Lent::exact(rng, &bytes);
    }

    fn note(&self, _: &Book, after: &Book, answer: u32, seen: &mut Seen) -> Result<(), String> {
        if answer == 0 {
            seen.count(&KIND, if self.file.places[0] == OLD_MARK { OLD } else { NEW }, 1);
            seen.count(&KIND, TWIN, after.has_twin() as usize);
        }
        Ok(())
    }

    fn remember(&self, run: &mut Run) {
        let same = run.files.iter().find(|f| f.0 == self.file.places[..self.file.len]);
        run.held = same.map_or(vec![], |f| f.1.clone());
    }
}

/// A front, how many zeros after it; the answer: case 8 of document 01 and the file
/// of the printed sheet, as document 02, 2.7 has them and as document 01 does.
const CASES: [(&[u8], usize, u32); 27] = [
    (&[0x55, 0x00, 0x20, 0x40], 9, 0),
    (&[0x55, 0x02, 0x20, 0x40], 9, 0),
    (&[0x55, 0x00, 0x20, 0x40, 0, 0, 0, 0, 0, 0, 0, 0, 1], 0, 11),
    (&[0x55, 0x00, 0x20, 0x40], 2, 8),
    (&[0x55, 0x00, 0x20, 0x40], 8, 8),
    (&[0x55, 0x00, 0x20, 0x40], 10, 8),
    // under 12 bytes before what follows
    (&[0x55, 0xF2, 0x00, 0x40], 7, 8),
    (&[0x55, 0xF2, 0x00, 0x40], 8, 10),
    (&[0x55, 0x00, 0x00, 0x40], 7, 8),
    (&[0x55, 0x00, 0x00, 0x40], 8, 2),
    (&[0x55, 0x00, 0x20, 0x00], 9, 3),
    // mark 54
    (&[0x54, 0x00, 0x20, 0x40], 3, 0),
    (&[0x54, 0x02, 0x20, 0x40], 3, 0),
    (&[0x54, 0x00, 0x20, 0x40, 0, 0, 1], 0, 11),
    (&[0x54, 0x00, 0x20, 0x40], 2, 8),
    (&[0x54, 0x00, 0x20, 0x40], 4, 8),
    (&[0x54, 0x00, 0x20, 0x40], 9, 8),
    (&[0x54, 0x00, 0x20, 0x40], 1, 8),
    (&[0x54, 0xF2, 0x00, 0x40], 2, 10),
    (&[0x54, 0x00, 0x00, 0x40], 2, 2),
    (&[0x54, 0x00, 0x20, 0x00, 0, 0, 1], 0, 3),
    // neither, with 127 tides and k = 0
    (&[0x56, 0xFE], 3, 8),
    (&[0x56, 0xFE], 4, 9),
    (&[0x53, 0xFE], 3, 8),
    (&[0x53, 0xFE], 4, 9),
    (&[0x53, 0x00, 0x20, 0x40], 9, 9),
    (&[], 0, 8),
];

fn worked(seen: &mut Seen, rng: &mut Rng) {
    for (front, zeros, answer) in CASES {
        let file = [front, &vec![0; zeros]].concat();
        let mut run = Run::new(rng, 1);
        let what = format!("Read of {file:02x?}");
        expect(run.make(seen, &mut Read::of(rng, &file)), answer, &what);
    }
    // one count becomes keeper 1's, four go to their keepers
    let one: &[u8] = b"\x54\x00\x20\x7f\xff\xc0\x00";
    let four: &[u8] = b"\x55\x00\x20\x7f\xff\xc0\x00\x40\x00\x80\x00\xc0\x00";
    for (file, counts) in [(one, [65_535, 0, 0, 0]), (four, [65_535, 1, 2, 3])] {
        let mut run = Run::new(rng, 1);
        expect(run.make(seen, &mut Read::of(rng, file)), 0, "a file with counts");
        demand(run.book.counts() == counts, || format!("counts of {file:02x?}"));
    }
}

/// Tides at 0, 3, 7 and 12 with settings 1, 2, 2, 1, b0 = 2 and b = 1, 1; keeper 1
/// has withdrawn 32,769 times. Under mark 55, and under mark 54.
const FOUR: &[u8] = b"\x55\x08\x40\xa0\x00\x40\x00\x00\x00\x00\x00\x00\x81\x04\x00\x00\
    \xc8\x00\x03\x80\x00\x20\x00\x00\xc0\x00\x09\x00\x00\x50";
const OLD_FOUR: &[u8] = b"\x54\x08\x40\xa0\x00\x40\x81\x04\x00\x00\
    \xc8\x00\x03\x80\x00\x20\x00\x00\xc0\x00\x09\x00\x00\x50";

fn four_tides(seen: &mut Seen, rng: &mut Rng) {
    let study = Study {
        b0: 2,
        b: [1, 1, 0, 0, 0, 0, 0, 0],
        withdrawals: [32_769, 0, 0, 0],
        ..line_study(&[0, 3, 7, 12], &[1, 2, 2, 1], 2)
    };
    for file in [FOUR, OLD_FOUR] {
        let mut run = Run::new(rng, 1);
        expect(run.make(seen, &mut Read::of(rng, file)), 0, "the file of four tides");
        demand(run.book.study().as_ref() == Some(&study), || format!("Read of {file:02x?}"));
        demand(Write::bytes(seen, rng, &mut run) == FOUR, || format!("{file:02x?} anew"));
        lengths_and_bits(seen, rng, file);
    }
}

/// Small files of both marks. What an old file gives is written anew with its
/// count as keeper 1's.
fn both_marks(seen: &mut Seen, rng: &mut Rng, runs: usize) {
    for turn in 0..runs {
        let study = some_study(rng, turn % 5);
        let (new, old) = (file_of(&study), old_file_of(&study));
        lengths_and_bits(seen, rng, &new);
        lengths_and_bits(seen, rng, &old);
        let mut run = Run::new(rng, 1);
        expect(run.make(seen, &mut Read::of(rng, &old)), 0, "an old file");
        let anew = Study { withdrawals: [study.withdrawals[0], 0, 0, 0], ..study };
        let bytes = Write::bytes(seen, rng, &mut run);
        demand(bytes == file_of(&anew), || format!("{old:02x?} written anew: {bytes:02x?}"));
    }
}

/// A file at each length up to some bytes more, and with each bit flipped. A file
/// of mark 55 that is accepted is written as it was.
fn lengths_and_bits(seen: &mut Seen, rng: &mut Rng, file: &[u8]) {
    let mut run = Run::new(rng, 1);
    for len in 0..=file.len() + 8 {
        let mut bytes = file.to_vec();
        bytes.resize(len, 0);
        let expected = if len == file.len() { 0 } else { 8 };
        let what = format!("{len} bytes of a file of {}", file.len());
        expect(run.make(seen, &mut Read::of(rng, &bytes)), expected, &what);
    }
    for bit in 0..8 * file.len() {
        let mut bytes = file.to_vec();
        bytes[bit / 8] ^= 0x80 >> (bit % 8);
        let accepted = run.make(seen, &mut Read::of(rng, &bytes)) == 0;
        if accepted && bytes[0] == MARK {
            let again = Write::bytes(seen, rng, &mut run);
            demand(again == bytes, || format!("{bytes:02x?} comes back as {again:02x?}"));
        }
    }
}

/// The greatest files of both marks: a byte less, whole, a byte more, and a bit
/// flipped here and there.
fn longest(seen: &mut Seen, rng: &mut Rng) {
    let study = full_study();
    for (file, size) in [(file_of(&study), 17_914), (old_file_of(&study), 17_908)] {
        demand(file.len() == size, || format!("a file of {}", file.len()));
        let mut run = Run::new(rng, 1);
        for (len, expected) in [(size - 1, 8), (size + 1, 8), (size, 0)] {
            let mut bytes = file.clone();
            bytes.resize(len, 0);
            let what = format!("{len} bytes of 120 tides");
            expect(run.make(seen, &mut Read::of(rng, &bytes)), expected, &what);
        }
        let anew = file_of(&run.book.study().unwrap());
        demand(Write::bytes(seen, rng, &mut run) == anew, || "120 tides anew".to_string());
        demand(size == 17_908 || anew == file, || "120 tides as they were".to_string());
        for bit in (0..8 * size).step_by(1_009).chain(8 * size - 9..8 * size) {
            let mut bytes = file.clone();
            bytes[bit / 8] ^= 0x80 >> (bit % 8);
            run.make(seen, &mut Read::of(rng, &bytes));
        }
    }
}

/// Files of any kind, read into junk or into a book.
fn random_files(seen: &mut Seen, rng: &mut Rng, count: usize) {
    let mut run = Run::new(rng, 10);
    for i in 0..count {
        if i % 50 == 0 {
            run = Run::new(rng, 10);
        }
        let mut file = some_file(rng);
        for _ in 0..rng.pick(&[0, 1, 1, 1, 2, 2, 3]) {
            spoil_file(rng, &mut file);
        }
        if run.make(seen, &mut Read::of(rng, &file)) == 0 {
            for kind in [&write::KIND, &block::KIND, &tariff::KIND, &withdraw::KIND] {
                let mut call = (kind.propose)(rng, &run);
                run.make(seen, &mut *call);
            }
        }
    }
}

/// The refusals of the file of four tides; the fourth is of mark 55 alone.
const FAULTS: [Fault<Read>; 13] = [
    (1, |r, book, _| book.shorten(r)),
    (8, |r, _, read| read.file.len = r.below(6)),
    (9, |r, _, read| read.file.places[0] = r.pick(&[0, 0x45, 0x53, 0x56, 0xD5])),
    (8, |r, _, read| {
        read.file.places[0] = MARK;
        read.file.len = r.within(6, 11);
    }),
    (10, |r, _, read| bits::set_n(read.file.part(), r.within(121, 127))),
    (2, |r, _, read| bits::set_k(read.file.part(), r.pick(&[0, 9, 15]))),
    // another length, or the other mark
    (8, |r, _, read| match r.below(4) {
        0 => read.file.len = 12,
        1 => read.file.len -= 1,
        2 => read.file.len += 1,
        _ => read.file.places[0] ^= MARK ^ OLD_MARK,
    }),
    (3, |r, _, read| bits::set_b0(read.file.part(), r.pick(&[0, 1, 121, 127]))),
    (11, |r, _, read| bits::set_filling(r, read.file.part())),
    // tide 2's setting, tide 3's row, tide 4's setting and row
    (5, |r, _, read| bits::set_setting(read.file.part(), 1, r.within(2, 7))),
    (seven((1, 2)), |_, _, read| bits::set_distance(read.file.part(), 2, 0, 1000)),
    (5, |r, _, read| bits::set_setting(read.file.part(), 3, r.within(2, 7))),
    (seven((1, 3)), |_, _, read| bits::set_distance(read.file.part(), 3, 2, 1000)),
];

fn reasons(seen: &mut Seen, rng: &mut Rng) {
    at_once(seen, rng, |rng| Read::of(rng, FOUR), &FAULTS);
    let old = [&FAULTS[..3], &FAULTS[4..]].concat();
    at_once(seen, rng, |rng| Read::of(rng, OLD_FOUR), &old);
}
