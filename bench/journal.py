#!/usr/bin/env python3
"""How long `read` and `write_text` take on journals of the most entries, beside a plain loop over the same bytes, in nanoseconds of processor time a byte."""

import common

RUNS = 8
KINDS = [
    # name, what each entry says behind its number
    ('short', '0 ended u'),
    ('calls', '40000 called o30000.12 3 i-2147483648 t o123.7'),
    ('firings', '40000 fired 12 o30000.12 3 10000 20000 30000 i12345 x68692c20776f726c64'),
    ('texts', '0 printed x54686520717569636b2062726f776e20666f78206a756d7073206f76657220746865206c617a7920646f67'),
]
ENTRIES = 65_536
SOURCE = '''
use chord_base::journal::Journal;
use chord_io::MemSink;
use chord_journal::{read, write_text};
use std::alloc::{AllocError, Global};
use std::fmt::Write;

const ENTRIES: u32 = %d;
const ROOM: u32 = 16_000_000;
const RUNS: u64 = %d;

// The text of a journal of the most entries, each of which goes on so behind its number.
fn text(alloc: Global, end: &str) -> Result<String, AllocError> {
    let mut text = String::from_str(alloc, "journal 1 %d\\n")?;
    for number in 0..ENTRIES {
        push_line(&mut text, number, end)?;
    }
    Ok(text)
}

fn push_line(text: &mut String, number: u32, end: &str) -> Result<(), AllocError> {
    writeln!(text, "{number} {end}")
}

// The time of reading once, of writing what was read once, and how many entries and bytes there were.
fn one(rt: &HostRuntime, text: &[u8]) -> io::Result<(u64, u64, usize, usize)> {
    let start = rt.thread_cpu_time()?;
    let result = read(rt.alloc(), text);
    let reading = micros(rt, start)?;
    match result {
        Ok(journal) => {
            let (writing, bytes) = written(rt, &journal)?;
            Ok((reading, writing, journal.entries().len(), bytes))
        }
        Err(_) => Ok((reading, 0, 0, 0)),
    }
}

fn written(rt: &HostRuntime, journal: &Journal) -> io::Result<(u64, usize)> {
    let mut sink = MemSink::new(rt.alloc(), ROOM, ROOM, Vec::new(rt.alloc()))?;
    let start = rt.thread_cpu_time()?;
    let _ = write_text(journal, &mut sink);
    Ok((micros(rt, start)?, sink.taken().len()))
}

fn measure(rt: &HostRuntime, name: &str, end: &str) -> io::Result<()> {
    let text = text(rt.alloc(), end)?;
    let text = text.as_bytes();
    let mut reading = 0u64;
    let mut writing = 0u64;
    let mut entries = 0;
    let mut bytes = 0;
    for _ in 0..RUNS {
        let (one_read, one_write, count, length) = one(rt, text)?;
        reading = reading.saturating_add(one_read);
        writing = writing.saturating_add(one_write);
        entries = count;
        bytes = length;
    }
    let (theirs, all) = plain_micros(rt, text, RUNS)?;
    let len = text.len();
    println!(rt; "{name} {len} {bytes} {entries} {reading} {writing} {theirs} {all}")
}

fn main(rt: HostRuntime) -> io::Result<()> {
%s
    Ok(())
}
'''


def main():
    calls = '\n'.join(f'    measure(&rt, "{name}", "{end}")?;' for name, end in KINDS)
    rows = common.rows_of('journal_speed', ['chord_base', 'chord_io', 'chord_journal'], SOURCE % (ENTRIES, RUNS, ENTRIES, calls))
    assert [row[0] for row in rows] == [kind[0] for kind in KINDS], rows
    for name, *numbers, _ in rows:
        read, written, entries, reading, writing, theirs = map(int, numbers)
        assert entries == ENTRIES and written == read, f'{name}: {entries} entries, {written} bytes of {read}'
        scale, plain = read * RUNS / 1000, max(theirs, 1)
        common.tell(f'read-{name}', reading / scale, plain / scale, 'ns a byte', f'{read} bytes')
        common.tell(f'write-{name}', writing / scale, plain / scale, 'ns a byte', f'{written} bytes')


if __name__ == '__main__':
    main()
