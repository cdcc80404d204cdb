//! images_bench: times of the port's functions on images beside those of Rust written by hand.
//!
//! Both are called by address with the port's convention, on the same images and questions, and
//! must give the same answers. Below each row of 48 bits stands that of 57, on an image of five
//! levels with the same pages, or of the same kind, beside hand-written Rust for five levels.

mod calls;
mod timing;
mod trees;

use images::hand_written::{HAND_WRITTEN, LIST_BY_SEARCHES};
use images::image::{Image, TABLE};
use images::library::ListFunction;
use images::port::PORT;
use images::reference::runs::MOST_LINES;
use images::width::Width;
use images::worst;

use calls::{bytes, hold_alike, hold_lists_alike, hold_translations_alike, list};
use calls::{pages, runs, translate_all, WORDS};
use timing::{alternate, Side};

/// Translations in a turn.
const QUESTIONS: usize = 1 << 14;

/// Tables of level 1 under 2 million pages.
const MANY: u64 = 4096;

/// Pages of a short run, and of a long one.
const SHORT: u64 = 64;
const LONG: u64 = 1 << 19;

/// Tables in a MiB.
const MIB: u64 = 256;

/// Tables of level 1 in 256 KiB.
const FEW: u64 = MIB / 4 - 3;

const NAME: usize = 36;

fn main() {
    println!("ratio is port/Rust; by searches, port/Rust with a list made of single searches");
    all_translations();
    all_lists();
    println!(
        "{:NAME$}{:>4}{:>9}{:>9}",
        "single translations/list", "bits", "port", "Rust"
    );
    for (name, run) in [("short runs", SHORT), ("long runs", LONG)] {
        for width in Width::ALL {
            against_translations(name, &trees::full(width, MANY, run));
        }
    }
    println!(
        "{:NAME$}{:>4}{:>9}{:>9}{:>9}",
        "growth", "bits", "port ns", "Rust ns", "ratio"
    );
    for size in [1u64, 4, 16, 64] {
        for width in Width::ALL {
            let uppers = u64::from(width.levels()) - 2 + size.div_ceil(2);
            growth(size, &trees::full(width, size * MIB - uppers, SHORT));
        }
    }
    println!(
        "{:NAME$}{:>4}{:>9}{:>9}{:>9}{:>9}{:>13}",
        "worst images, ms", "bits", "answers", "port", "Rust", "ratio", "by searches"
    );
    let [four, five] = Width::ALL.map(worst::all);
    for (four, five) in four.iter().zip(&five) {
        longest(four.name, &four.image);
        longest(five.name, &five.image);
    }
}

/// What a row begins with.
fn label(name: &str, image: &Image) -> String {
    format!("{name:NAME$}{:>4}", image.width.bits())
}

fn all_translations() {
    println!(
        "{:NAME$}{:>4}{:>9}{:>9}{:>9}",
        "translations", "bits", "port ns", "Rust ns", "ratio"
    );
    for (lowest, size) in [
        (5, "32 KiB"),
        (61, "256 KiB"),
        (8000, "31 MiB"),
        (16000, "63 MiB"),
    ] {
        let images = Width::ALL.map(|width| trees::holed(width, lowest));
        for (with_absent, kind) in [(false, "all mapped"), (true, "one of 8 absent")] {
            for image in &images {
                let addresses = trees::addresses(image.width, lowest, QUESTIONS, with_absent);
                translations(&format!("{size} of tables, {kind}"), image, &addresses);
            }
        }
    }
}

fn translations(name: &str, image: &Image, addresses: &[u64]) {
    hold_translations_alike(image, addresses);
    let side = |function| -> Side { Box::new(move || translate_all(function, image, addresses)) };
    let times = alternate([PORT, HAND_WRITTEN].map(|library| side(library.translate)));
    let [port, rust] = times.map(|time| time / addresses.len() as f64);
    let ratio = port / rust;
    let label = label(name, image);
    println!("{label}{port:>9.2}{rust:>9.2}{ratio:>9.2}");
}

fn all_lists() {
    let columns = [
        "runs",
        "port/run",
        "Rust/run",
        "port/entry",
        "Rust/entry",
        "ratio",
    ];
    let columns: String = columns
        .iter()
        .map(|column| format!("{column:>12}"))
        .collect();
    println!(
        "{:NAME$}{:>4}{columns}{:>12}",
        "lists, ns", "bits", "by searches"
    );
    let [four, five] = Width::ALL.map(listed);
    for ((name, four), (_, five)) in four.iter().zip(&five) {
        lists(name, four);
        lists(name, five);
    }
}

/// Images whose lists are timed.
fn listed(width: Width) -> [(&'static str, Image); 6] {
    let full = |tables, run| trees::full(width, tables, run);
    let (sparse, large) = (trees::sparse(width, MANY), trees::large(width, FEW, SHORT));
    [
        ("16 MiB of tables, short runs", full(MANY, SHORT)),
        ("16 MiB of tables, long runs", full(MANY, LONG)),
        ("16 MiB of tables, a page in each", sparse),
        ("256 KiB of tables, short runs", full(FEW, SHORT)),
        ("256 KiB of tables, long runs", full(FEW, LONG)),
        ("256 KiB of tables, 2 MiB pages", large),
    ]
}

fn lists(name: &str, image: &Image) {
    let functions = [PORT.list, HAND_WRITTEN.list, LIST_BY_SEARCHES];
    let [port, rust, searches] = time_lists(functions, image);
    let runs = runs(&hold_lists_alike(image));
    let times: String = [runs, image.words.len()]
        .iter()
        .flat_map(|&count| [port, rust].map(|time| format!("{:>12.2}", time / count as f64)))
        .collect();
    let (ratio, by_searches) = (port / rust, port / searches);
    let label = label(name, image);
    println!("{label}{runs:>12}{times}{ratio:>12.2}{by_searches:>12.2}");
}

/// Nanoseconds for a whole list.
fn time_lists<const N: usize>(functions: [ListFunction; N], image: &Image) -> [f64; N] {
    time_answers(functions, image, hold_lists_alike(image).len())
}

/// Nanoseconds for a list with so much room, each side into an own buffer.
fn time_answers<const N: usize>(
    functions: [ListFunction; N],
    image: &Image,
    room: usize,
) -> [f64; N] {
    alternate(functions.map(|function| -> Side {
        let (mut empty, mut answers) = (bytes(image), vec![0; room]);
        Box::new(move || {
            list(function, image, &mut empty, &mut answers);
        })
    }))
}

/// How many times longer all pages take when they are translated singly.
fn against_translations(name: &str, image: &Image) {
    let pages = pages(&hold_lists_alike(image));
    let both = [PORT, HAND_WRITTEN].map(|library| {
        let side: Side = Box::new(|| translate_all(library.translate, image, &pages));
        let ([singly], [list]) = (alternate([side]), time_lists([library.list], image));
        singly / list
    });
    let label = label(name, image);
    println!("{label}{:>9.2}{:>9.2}", both[0], both[1]);
}

/// Nanoseconds for a table.
fn growth(size: u64, image: &Image) {
    let times = time_lists([PORT.list, HAND_WRITTEN.list], image);
    let tables = (image.words.len() / TABLE) as f64;
    let [port, rust] = times.map(|time| time / tables);
    let label = label(&format!("{size} MiB of tables, ns for a table"), image);
    let ratio = port / rust;
    println!("{label}{port:>9.1}{rust:>9.1}{ratio:>9.2}");
}

/// Milliseconds for as many answers as the program `runs` prints, at either width.
fn longest(name: &str, image: &Image) {
    let functions = [PORT.list, HAND_WRITTEN.list, LIST_BY_SEARCHES];
    let (answers, _) = hold_alike(image, MOST_LINES);
    let times = time_answers(functions, image, answers.len());
    let [port, rust, searches] = times.map(|time| time / 1e6);
    let (count, ratio, by_searches) = (answers.len() / WORDS, port / rust, port / searches);
    let label = label(name, image);
    println!("{label}{count:>9}{port:>9.3}{rust:>9.3}{ratio:>9.2}{by_searches:>13.2}");
}
