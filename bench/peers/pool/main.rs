//! The programs of bench/workloads by a pool of the same algorithm as ours: what a firing costs where nothing is proved and no code is interpreted. The table
//! is that of docs/TABLE.md: a counter, a cell and a slot for each number, heads of bags for each object; and all of its steps are sequentially consistent. It
//! differs where Rust can have it faster: what belongs to one number lies in one cache line, without a place word, which nobody reads; posted firings go
//! through the deques of crossbeam instead of being looked for among the cells; and bodies are state machines written by hand. `pool WORKERS WORKLOAD` prints
//! what the workload prints, and with `--journal` the text of the journal behind it (docs/JOURNAL.md, but that the classes of all workloads are numbered
//! together).

mod bodies;
mod journal;
mod table;
mod workers;

use bodies::{Body, Main};
use journal::{Entry, What};
use std::env;
use std::hint::black_box;
use std::io::{self, Write};
use workers::play;

/// The first allocation of the process. glibc 2.36 reads then whether there are large pages, into bytes on the stack that it compares as a text without having
/// ended it: what stood there before decides whether it sees them. So zeros do.
extern "C" fn allocate_over_zeros() {
    black_box([0u8; 1 << 16]);
    drop(black_box(Box::new(0u8)));
}

#[used]
#[link_section = ".init_array"]
static BEFORE_ALL_ELSE: extern "C" fn() = allocate_over_zeros;

/// The lines of a journal, and its text if that is asked for.
fn text(journal: &[Entry], whole: bool) -> String {
    let mut text = String::new();
    for entry in journal {
        if let What::Printed(line) = &entry.what {
            text += &format!("{line}\n");
        }
    }
    if whole {
        text += &format!("journal 1 {}\n", journal.len());
        text.extend(journal.iter().map(|entry| format!("{entry}\n")));
    }
    text
}

fn main() -> io::Result<()> {
    let words: Vec<String> = env::args().skip(1).collect();
    let [workers, workload, rest @ ..] = words.as_slice() else { panic!("pool WORKERS WORKLOAD [--journal]") };
    let main = match workload.as_str() {
        "uncontended" => Body::Uncontended(Main::default()),
        "buffer" => Body::Buffer(Main::default()),
        "lock" => Body::Lock(Main::default()),
        "santa" => Body::Santa(Main::default()),
        _ => Body::Nothing,
    };
    let journal = play(main, workers.parse().expect("a number of workers"));
    io::stdout().write_all(text(&journal, !rest.is_empty()).as_bytes())
}
