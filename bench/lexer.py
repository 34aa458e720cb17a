#!/usr/bin/env python3
"""How long `lex` takes on 1 MiB of names, of one literal, of one comment, of blanks and of marks, beside a plain loop over the same bytes, in
nanoseconds of processor time a byte."""

import common

RUNS = 8
KINDS = [
    # name, first, middle over and over, last
    ('names', 'a', ' stream_12', ''),
    ('short-names', 'a', ' s', ''),
    ('words', 'a', ' switch', ''),
    ('literal', '\\"', 'text\\\\n', '\\"'),
    ('line-comment', '//', 'a comment ', ''),
    ('block-comment', '/*', 'a comment ', '*/'),
    ('blanks', ' ', '    ', ''),
    ('numbers', '1', ' 0123456789', ''),
    ('marks', '+', ' <=;', ''),
]
SOURCE = '''
use chord_lexer::lexer::lex;
use std::alloc::{AllocError, Global};

const BYTES: usize = 1048576;
const RUNS: u64 = %d;

// `first`, then `middle` over and over, then `last`.
fn text(alloc: Global, first: &[u8], middle: &[u8], last: &[u8]) -> Result<Vec<u8>, AllocError> {
    let mut out = Vec::new(alloc);
    out.extend_from_slice(first)?;
    for _ in 0..BYTES {
        if out.len() < BYTES - 32 {
            out.extend_from_slice(middle)?;
        }
    }
    out.extend_from_slice(last)?;
    Ok(out)
}

// The time of one call, and how many tokens it gave, if it gave any list.
fn one(rt: &HostRuntime, text: &[u8]) -> io::Result<(u64, Option<usize>)> {
    if text.len() > BYTES {
        return Ok((0, None));
    }
    let start = rt.thread_cpu_time()?;
    let result = lex(rt.alloc(), text);
    let took = micros(rt, start)?;
    match result {
        Ok(tokens) => Ok((took, Some(tokens.len()))),
        Err(_) => Ok((took, None)),
    }
}

fn measure(rt: &HostRuntime, name: &str, text: &[u8]) -> io::Result<()> {
    let mut ours = 0u64;
    let mut lists = 0u64;
    let mut tokens = 0;
    for _ in 0..RUNS {
        let (took, count) = one(rt, text)?;
        ours = ours.saturating_add(took);
        if let Some(count) = count {
            lists = lists.saturating_add(1);
            tokens = count;
        }
    }
    let (theirs, all) = plain_micros(rt, text, RUNS)?;
    let len = text.len();
    println!(rt; "{name} {len} {lists} {tokens} {ours} {theirs} {all}")
}

fn main(rt: HostRuntime) -> io::Result<()> {
%s
    Ok(())
}
'''


def main():
    calls = [f'    let made = text(rt.alloc(), b"{first}", b"{middle}", b"{last}")?;\n    measure(&rt, "{name}", &made)?;' for name, first, middle, last in KINDS]
    rows = common.rows_of('lexer_speed', ['chord_lexer'], SOURCE % (RUNS, '\n'.join(calls)))
    assert [row[0] for row in rows] == [kind[0] for kind in KINDS], rows
    for name, *numbers, _ in rows:
        size, lists, tokens, ours, theirs = map(int, numbers)
        assert lists == RUNS, f'{name}: {lists} lists of tokens in {RUNS} runs'
        assert (tokens == 0) == (name in ('line-comment', 'block-comment', 'blanks')), f'{name}: {tokens} tokens'
        scale = size * RUNS / 1000
        common.tell(name, ours / scale, max(theirs, 1) / scale, 'ns a byte', f'{size} bytes, {tokens} tokens')


if __name__ == '__main__':
    main()
