//! Prints images and the reader's replies to them as text, to be compared with another reader's: a line `image` with
//! the bytes, then one line a call with its arguments, '=' and all words of the reply, each list at its full length.
//! The argument is the number of images.

use compare::generate::corpus::{each, Case};
use compare::generate::random::Random;
use compare::reader::{audit, describe, lookup, mend, undo};
use std::io::{BufWriter, Write};

/// Words of a list that has room for most images.
const LENT: usize = 600;

fn main() -> std::io::Result<()> {
    let argument = std::env::args().nth(1);
    let count = argument.and_then(|text| text.parse().ok()).unwrap_or(1000);
    let mut out = BufWriter::new(std::io::stdout().lock());
    let mut random = Random::new(77);
    let mut failed = Ok(());
    each(count, |case| {
        if failed.is_ok() && case.image.len() <= 65_536 {
            failed = print(&mut out, case, &mut random);
        }
    });
    failed?;
    out.flush()
}

fn hexadecimal(bytes: &[u8]) -> String {
    bytes.iter().map(|byte| format!("{byte:02x}")).collect()
}

fn words(words: &[u64]) -> String {
    words.iter().map(|word| format!(" {word}")).collect()
}

fn print(out: &mut impl Write, case: &Case, random: &mut Random) -> std::io::Result<()> {
    writeln!(out, "image {}", hexadecimal(case.image))?;
    for lent in [0, 3, random.below(60) as usize, LENT] {
        let reply = audit(case.image, lent);
        write!(out, "audit {lent} = {} {}", reply.number, reply.met)?;
        write!(out, " {}", reply.block_count)?;
        for object in &reply.objects {
            let counts = (object.stored, object.true_count);
            write!(out, " {} {} {}", object.address, counts.0, counts.1)?;
        }
        writeln!(out, "{}", words(&reply.list))?;
    }
    for path in case.paths(random) {
        print_lookup(out, case.image, &path, random.below(80) as usize)?;
        print_lookup(out, case.image, &path, LENT)?;
    }
    print_mend(out, case.image, random)
}

fn print_lookup(
    out: &mut impl Write,
    image: &[u8],
    path: &[u8],
    lent: usize,
) -> std::io::Result<()> {
    let reply = lookup(image, path, lent);
    let shown = hexadecimal(path);
    write!(
        out,
        "lookup {shown} {lent} = {} {} {}",
        reply.number, reply.met, reply.kind
    )?;
    let rest = words(&reply.list);
    writeln!(out, " {} {}{rest}", reply.address, reply.block_count)?;
    let reply = describe(image, path, lent);
    let fields = &reply.description;
    write!(
        out,
        "describe {shown} {lent} = {} {} {}",
        reply.number, reply.met, reply.block_count
    )?;
    write!(
        out,
        " {}{}{}",
        fields.rank,
        words(&fields.sizes),
        words(&fields.maxima)
    )?;
    write!(
        out,
        " {} {} {}",
        fields.class, fields.version, fields.class_bits
    )?;
    write!(out, " {} {}", fields.element_size, fields.shared_address)?;
    write!(out, " {} {}", fields.layout_class, fields.data_address)?;
    writeln!(out, " {}{}", fields.data_size, words(&reply.list))
}

fn print_mend(out: &mut impl Write, image: &[u8], random: &mut Random) -> std::io::Result<()> {
    let log_words = random.below(24) as usize;
    let limit = random.below(6);
    let mut changed = image.to_vec();
    let reply = mend(&mut changed, LENT, log_words, limit);
    write!(
        out,
        "mend {LENT} {log_words} {limit} = {} {} {}",
        reply.number, reply.met, reply.block_count
    )?;
    write!(
        out,
        " {} {}{}",
        reply.entries,
        reply.writes,
        words(&reply.list)
    )?;
    writeln!(out, "{} {}", words(&reply.log), hexadecimal(&changed))?;
    let mut log = reply.log;
    if random.once_in(3) && !log.is_empty() {
        let at = random.below(log.len() as u64) as usize;
        log[at] = random.pick(&[0, 4, u64::MAX, u64::MAX - 3, log[at] + 1, log[at] ^ 1 << 32]);
    }
    let entries = random.pick(&[reply.entries, reply.entries, 0, 1, 2, 13]);
    let limit = random.below(6);
    write!(out, "undo {} {entries} {limit}{}", log.len(), words(&log))?;
    let undone = undo(&mut changed, &log, entries, limit);
    writeln!(
        out,
        " = {} {} {}",
        undone.number,
        undone.writes,
        hexadecimal(&changed)
    )
}
