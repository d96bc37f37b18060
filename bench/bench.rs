//! Times of the project's static library beside those of Debian's libraries: symbols of three sides made, read clean
//! and read with as many wrong codewords in each block as can be corrected, and labels opened. Each answer is checked
//! before it is timed.

mod measure;
mod others;
mod softcairn;
mod symbol;

use measure::{Spread, greatest_heap, repeats, spread_of};
use others::{Maker, Reader};
use softcairn::Buffer;
use std::fmt;
use std::hint::black_box;
use std::process::ExitCode;
use symbol::{HEAD_WORDS, SIZES, Size};

const OURS: &str = "softcairn";

#[derive(Clone, Copy, PartialEq)]
enum Kind {
    Make,
    Read,
    Open,
}

/// What is done: on which side, and with how many wrong codewords in each block.
#[derive(Clone, Copy, PartialEq)]
struct Work {
    kind: Kind,
    side: u16,
    wrong: usize,
}

impl fmt::Display for Work {
    fn fmt(&self, f: &mut fmt::Formatter<'_>) -> fmt::Result {
        let kind = match self.kind {
            Kind::Make => "make a symbol",
            Kind::Read => "read a symbol",
            Kind::Open => "open a label",
        };
        write!(f, "{kind}, side {}", self.side)?;
        match (self.kind, self.wrong) {
            (Kind::Make, _) => Ok(()),
            (_, 0) => write!(f, ", clean"),
            (_, wrong) => write!(f, ", {wrong} wrong codewords a block"),
        }
    }
}

/// A library that does a work.
struct Contender {
    work: Work,
    library: &'static str,
    /// Pixels along a module that it reads.
    scale: usize,
    call: Box<dyn FnMut()>,
}

/// All that is timed, and what was found out on the way.
struct Contest {
    contenders: Vec<Contender>,
    remarks: Vec<String>,
}

impl Contest {
    fn add(&mut self, work: Work, library: &'static str, scale: usize, call: impl FnMut() + 'static) {
        self.contenders.push(Contender { work, library, scale, call: Box::new(call) });
    }

    fn add_making(&mut self, size: Size) {
        let work = Work { kind: Kind::Make, side: size.side, wrong: 0 };
        let text = size.digits(size.data_words);
        let modules = size.modules(&drawn(size, &text));
        let mut buffer = Buffer::new();
        let ours = text.clone();
        self.add(work, OURS, 1, move || {
            black_box(buffer.symbol_from_text(size.side, black_box(&ours)));
        });
        for maker in others::makers() {
            self.add_maker(work, size, &text, &modules, maker);
        }
    }

    fn add_maker(&mut self, work: Work, size: Size, text: &[u8], modules: &[bool], mut maker: Box<dyn Maker>) {
        let Some(theirs) = maker.modules(size, text) else {
            self.remarks.push(format!("{work}: {} makes none", maker.name()));
            return;
        };
        if theirs != modules {
            self.remarks.push(format!("{work}: {} makes another symbol", maker.name()));
        }
        let text = text.to_vec();
        self.add(work, maker.name(), 1, move || {
            black_box(maker.make(size, black_box(&text)));
        });
    }

    fn add_reading(&mut self, size: Size, wrong: usize) {
        let work = Work { kind: Kind::Read, side: size.side, wrong };
        let text = size.digits(size.data_words);
        let image = size.damaged(&drawn(size, &text), wrong);
        let mut buffer = Buffer::new();
        assert_eq!(buffer.text_from_image(&image), Some(text.as_slice()));
        let beyond = size.damaged(&drawn(size, &text), size.limit() + 1);
        assert_ne!(buffer.text_from_image(&beyond), Some(text.as_slice()));
        let ours = image.clone();
        self.add(work, OURS, 1, move || {
            black_box(buffer.text_from_image(black_box(&ours)));
        });
        for reader in others::readers() {
            self.add_reader(work, size, &text, &image, reader);
        }
    }

    fn add_reader(&mut self, work: Work, size: Size, text: &[u8], image: &[u8], reader: Box<dyn Reader>) {
        let mut room = [0; 4096];
        let width = move |scale: usize| (usize::from(size.side) + 2) * scale;
        let found = (1..=GREATEST_SCALE).find_map(|scale| {
            let pixels = size.grey(image, scale);
            (reader.read(&pixels, width(scale), &mut room) == Some(text)).then_some((scale, pixels))
        });
        let Some((scale, pixels)) = found else {
            self.remarks.push(format!("{work}: {} reads none", reader.name()));
            return;
        };
        self.add(work, reader.name(), scale, move || {
            black_box(reader.read(black_box(&pixels), width(scale), &mut room));
        });
    }

    fn add_opening(&mut self, size: Size, wrong: usize) {
        let work = Work { kind: Kind::Open, side: size.side, wrong };
        let text = size.digits(size.data_words - HEAD_WORDS);
        let mut buffer = Buffer::new();
        let label = buffer.label_from_text(size.side, &text).expect("the text fits").to_vec();
        let image = size.damaged(&label, wrong);
        assert_eq!(buffer.page_from_image(&image), Some(text.as_slice()));
        self.add(work, OURS, 1, move || {
            black_box(buffer.page_from_image(black_box(&image)));
        });
    }
}

/// The most pixels along a module at which a reader is tried; the fewest at which it reads are measured.
const GREATEST_SCALE: usize = 8;

// The project's image of the symbol of a text.
fn drawn(size: Size, text: &[u8]) -> Vec<u8> {
    Buffer::new().symbol_from_text(size.side, text).expect("the text fits").to_vec()
}

/// The times of a library for a work, in microseconds, repeat by repeat.
struct Times {
    work: Work,
    library: &'static str,
    scale: usize,
    microseconds: Vec<f64>,
}

fn times_of<'a>(times: &'a [Times], work: Work, library: &str) -> Option<&'a [f64]> {
    times.iter().find(|time| time.work == work && time.library == library).map(|time| time.microseconds.as_slice())
}

// How one's times are to another's, repeat by repeat.
fn ratio_of(ours: &[f64], others: &[f64]) -> Spread {
    let ratios: Vec<f64> = ours.iter().zip(others).map(|(ours, other)| ours / other).collect();
    spread_of(&ratios)
}

fn print_times(times: &[Times]) {
    println!("| work | library | microseconds | softcairn's time to it (quartiles) |");
    println!("|---|---|---:|---:|");
    for Times { work, library, scale, microseconds } in times {
        let scaled = if *scale == 1 { String::new() } else { format!(", {scale} pixels a module") };
        let ours = times_of(times, *work, OURS).expect("the project does every work");
        let Spread { low, middle, high } = ratio_of(ours, microseconds);
        let time = spread_of(microseconds).middle;
        println!("| {work} | {library}{scaled} | {time:.2} | {middle:.3} ({low:.3} to {high:.3}) |");
    }
}

fn print_aim(what: &str, ours: Option<&[f64]>, others: Option<&[f64]>, aim: f64) {
    match ours.zip(others).map(|(ours, others)| ratio_of(ours, others)) {
        None => println!("- {what}: not measured; aim at most {aim}"),
        Some(Spread { low, middle, high }) => {
            let verdict = if middle <= aim { "reached" } else { "not reached" };
            println!("- {what}: {middle:.3} ({low:.3} to {high:.3}); aim at most {aim}: {verdict}");
        }
    }
}

/// What is aimed at on each side: the most of libiec16022's time to make a symbol, of ZXing's to read a clean
/// one, and, to read one with wrong codewords, of ZXing's to read a clean one.
type Aims = [(u16, [f64; 3]); 3];

const AIMS: Aims = [(10, [0.60, 0.15, 0.23]), (52, [0.14, 0.056, 0.17]), (132, [0.075, 0.032, 0.14])];

fn print_aims(times: &[Times]) {
    for size in SIZES {
        let Some((_, [make_aim, clean_aim, damaged_aim])) = AIMS.iter().find(|(side, _)| *side == size.side) else {
            continue;
        };
        let make = Work { kind: Kind::Make, side: size.side, wrong: 0 };
        let clean = Work { kind: Kind::Read, side: size.side, wrong: 0 };
        let damaged = Work { kind: Kind::Read, side: size.side, wrong: size.limit() };
        let ours = |work| times_of(times, work, OURS);
        let zxing = times_of(times, clean, "ZXing, pure");
        print_aim(&format!("{make}, to libiec16022"), ours(make), times_of(times, make, "libiec16022"), *make_aim);
        print_aim(&format!("{clean}, to ZXing, pure"), ours(clean), zxing, *clean_aim);
        print_aim(&format!("{damaged}, to ZXing, pure, of a clean one"), ours(damaged), zxing, *damaged_aim);
    }
}

// The greatest heap of one symbol made and of one read with wrong codewords.
fn print_heap(size: Size) {
    let text = size.digits(size.data_words);
    let image = size.damaged(&drawn(size, &text), size.limit());
    let mut buffer = Buffer::new();
    let made = greatest_heap(|| {
        black_box(buffer.symbol_from_text(size.side, &text));
    });
    let read = greatest_heap(|| {
        black_box(buffer.text_from_image(&image));
    });
    println!("- heap of a symbol of side {}: {made} bytes to make it, {read} to read it; aim below 1048576", size.side);
}

fn measure_all() {
    let greatest = SIZES[SIZES.len() - 1];
    let mut contest = Contest { contenders: Vec::new(), remarks: Vec::new() };
    for size in SIZES {
        contest.add_making(size);
    }
    for size in SIZES {
        contest.add_reading(size, 0);
    }
    for size in SIZES {
        contest.add_reading(size, size.limit());
    }
    contest.add_opening(greatest, 0);
    contest.add_opening(greatest, greatest.limit());
    let Contest { mut contenders, remarks } = contest;
    let repeats = repeats(contenders.iter_mut().map(|contender| &mut contender.call));
    let times: Vec<Times> = contenders
        .iter()
        .zip(repeats)
        .map(|(Contender { work, library, scale, .. }, microseconds)| Times {
            work: *work,
            library,
            scale: *scale,
            microseconds,
        })
        .collect();
    print_times(&times);
    println!();
    print_aims(&times);
    for size in SIZES {
        print_heap(size);
    }
    println!();
    for remark in &remarks {
        println!("- {remark}");
    }
    if remarks.is_empty() {
        println!("- each other library makes the modules that softcairn makes, and reads each of softcairn's images");
    }
}

// Does one kind of work on a size that many times, for a profile; answers whether there is such a kind.
fn repeat(kind: &str, times: usize, size: Size) -> bool {
    let text = size.digits(size.data_words);
    let clean = drawn(size, &text);
    let damaged = size.damaged(&clean, size.limit());
    let mut buffer = Buffer::new();
    for _ in 0..times {
        let done = match kind {
            "make" => buffer.symbol_from_text(size.side, &text),
            "read" => buffer.text_from_image(&clean),
            "correct" => buffer.text_from_image(&damaged),
            _ => None,
        };
        if black_box(done).is_none() {
            return false;
        }
    }
    true
}

// The same by the words of the command line: a kind, how many times, and a side, else the greatest.
fn repeat_words(words: &[String]) -> bool {
    let (kind, times, side) = match words {
        [kind, times] => (kind, times.parse(), Ok(SIZES[SIZES.len() - 1].side)),
        [kind, times, side] => (kind, times.parse(), side.parse()),
        _ => return false,
    };
    let (Ok(times), Ok(side)) = (times, side) else {
        return false;
    };
    let size = SIZES.into_iter().find(|size| size.side == side);
    size.is_some_and(|size| repeat(kind, times, size))
}

fn main() -> ExitCode {
    let words: Vec<String> = std::env::args().skip(1).collect();
    if words.is_empty() {
        measure_all();
    } else if !repeat_words(&words) {
        eprintln!("bench: no words, or make, read or correct, a number of times, and a side (10, 52 or 132)");
        return ExitCode::from(2);
    }
    ExitCode::SUCCESS
}
