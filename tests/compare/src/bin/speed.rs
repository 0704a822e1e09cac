//! The audit and the lookup through the C front end of the proved library against the separate reader, on the same images in
//! the same process. All slices lent are cleared before every call; the clock runs during the call alone. A figure is the
//! median over several runs of the median over many calls.

use compare::generate::block_orders::{touching, ORDERS};
use compare::generate::hostile::{Hostile, Kind, FREE_KINDS, KINDS};
use compare::generate::{limits, small};
use compare::library;
use compare::reader::front::{audit_bytes, lookup_bytes, BLOCK_BYTES, REPLY_WORDS};
use compare::reader::MOST_BLOCKS;
use std::hint::black_box;
use std::time::{Duration, Instant};

/// So many runs of so long each: for an image of its own size, and for one at one of several sizes.
const RUNS: (usize, Duration) = (7, Duration::from_millis(150));
const SHORT_RUNS: (usize, Duration) = (5, Duration::from_millis(40));

const KIB: usize = 1024;
const MIB: usize = 1024 * KIB;
/// In each list of sizes the last is twice the one before it.
const SIZES: [usize; 5] = [64 * KIB, 256 * KIB, MIB, 8 * MIB, 16 * MIB];
/// For heaps with free blocks: above 1 MiB the library follows the free list for each name and value.
const FREE_SIZES: [usize; 4] = [64 * KIB, 256 * KIB, 512 * KIB, MIB];

struct Slices {
    blocks: Vec<u8>,
    reply: Vec<u8>,
}

fn median(mut figures: Vec<u64>) -> u64 {
    figures.sort_unstable();
    figures[figures.len() / 2]
}

/// A call on an image and a path.
type Call = fn(&[u8], &[u8], &mut [u8], &mut [u8]) -> u32;

const AUDIT: [Call; 2] = [
    |image, _, blocks, reply| library::audit(image, blocks, reply),
    |image, _, blocks, reply| audit_bytes(image, blocks, reply),
];
const LOOKUP: [Call; 2] = [library::lookup, lookup_bytes];

/// One call on cleared slices: its time in nanoseconds.
fn time(call: Call, asked: &Hostile, slices: &mut Slices) -> u64 {
    slices.blocks.fill(0);
    slices.reply.fill(0);
    black_box(&mut slices.blocks);
    let start = Instant::now();
    let number = call(
        black_box(&asked.image),
        &asked.path,
        &mut slices.blocks,
        &mut slices.reply,
    );
    let elapsed = start.elapsed();
    assert_eq!(black_box(number), 0);
    elapsed.as_nanos() as u64
}

/// The medians of library and reader in one run, their calls in turn.
fn run(calls: [Call; 2], asked: &Hostile, lasting: Duration, slices: &mut Slices) -> [u64; 2] {
    let mut times = [Vec::new(), Vec::new()];
    let start = Instant::now();
    while start.elapsed() < lasting || times[0].len() < 5 {
        for (call, times) in calls.iter().zip(&mut times) {
            times.push(time(*call, asked, slices));
        }
    }
    times.map(median)
}

fn measure(
    calls: [Call; 2],
    asked: &Hostile,
    runs: (usize, Duration),
    slices: &mut Slices,
) -> [u64; 2] {
    let times: Vec<[u64; 2]> = (0..runs.0)
        .map(|_| run(calls, asked, runs.1, slices))
        .collect();
    [0, 1].map(|whose| median(times.iter().map(|times| times[whose]).collect()))
}

fn ratio(times: [u64; 2]) -> f64 {
    times[0] as f64 / times[1] as f64
}

fn own_sizes(slices: &mut Slices) {
    let mut images = vec![("E", small::e().bytes), ("H", small::h().bytes)];
    images.extend(limits::all());
    for (name, order) in ORDERS {
        images.push((name, touching(order, MOST_BLOCKS).bytes));
    }
    println!("| image | bytes | library, ns | plain reader, ns | ratio |");
    println!("|---|---|---|---|---|");
    for (name, image) in images {
        let bytes = image.len();
        let path = b"/".to_vec();
        let times = measure(AUDIT, &Hostile { image, path }, RUNS, slices);
        let [library, reader] = times;
        println!(
            "| {name} | {bytes} | {library} | {reader} | {:.2} |",
            ratio(times)
        );
    }
}

fn size_name(size: &usize) -> String {
    match size / MIB {
        0 => format!("{} KiB", size / KIB),
        mib => format!("{mib} MiB"),
    }
}

/// Kinds of hostile files, and the sizes at which they are made.
type Table<'a> = (&'a [Kind], &'a [usize]);

const TABLES: [Table; 2] = [(&KINDS, &SIZES), (&FREE_KINDS, &FREE_SIZES)];

/// Of every kind the ratio at each size, both times at the last, and how much longer than at half of it.
fn hostile(what: &str, calls: [Call; 2], (kinds, sizes): Table, wanted: &str, slices: &mut Slices) {
    let names: Vec<String> = sizes.iter().map(size_name).collect();
    println!(
        "\n| {what} | {} | library, us | plain reader, us | twice the size |",
        names.join(" | ")
    );
    println!("|{}", "---|".repeat(sizes.len() + 4));
    for (name, make) in kinds {
        if !name.contains(wanted) {
            continue;
        }
        let times: Vec<[u64; 2]> = sizes
            .iter()
            .map(|size| measure(calls, &make(*size), SHORT_RUNS, slices))
            .collect();
        let ratios: Vec<String> = times
            .iter()
            .map(|times| format!("{:.2}", ratio(*times)))
            .collect();
        let [half, whole] = [times[sizes.len() - 2], times[sizes.len() - 1]];
        let growth = whole[0] as f64 / half[0] as f64;
        let [library, reader] = whole.map(|time| time as f64 / 1000.0);
        println!(
            "| {name} | {} | {library:.1} | {reader:.1} | {growth:.2} |",
            ratios.join(" | ")
        );
    }
}

/// Without an argument everything; with one the hostile files whose name has it.
fn main() {
    let mut slices = Slices {
        blocks: vec![0; BLOCK_BYTES * MOST_BLOCKS],
        reply: vec![0; 8 * REPLY_WORDS],
    };
    let wanted = std::env::args().nth(1);
    if wanted.is_none() {
        own_sizes(&mut slices);
    }
    let wanted = wanted.unwrap_or_default();
    for (what, calls) in [("audit", AUDIT), ("lookup", LOOKUP)] {
        for table in TABLES {
            hostile(what, calls, table, &wanted, &mut slices);
        }
    }
}
