//! Would catch a rare binary64 quotient, root or flag that differs from both others: the gate's comparison for as many
//! divisions as asked (10^9 by default) and as many roots, with seeds of its own. Arguments: the number of divisions, and a seed.
use host::compare::{drawn, drawn_roots, on_all_cores, Tally};

/// Pairs in one block of divisions and operands in one of roots, and blocks between two lines of progress.
const PAIRS: u64 = 25_000;
const BLOCKS: u64 = 1_000;

fn main() {
    let arguments: Vec<u64> = std::env::args().skip(1).map(|a| a.parse().expect("a number")).collect();
    let count = arguments.first().copied().unwrap_or(1_000_000_000);
    let seed = arguments.get(1).copied().unwrap_or(0x50A4_0000_0000);
    let blocks = count.div_ceil(4 * PAIRS);
    println!("seed {seed}, {} divisions and as many roots", blocks * 4 * PAIRS);
    let mut tally = Tally::default();
    let mut done = 0;
    while done < blocks {
        let next = BLOCKS.min(blocks - done);
        let first = seed + done;
        let both = |block| drawn(None, first + block, PAIRS).plus(drawn_roots(first + block, PAIRS));
        tally = tally.plus(on_all_cores(next, both));
        done += next;
        println!("{tally:?}");
    }
    println!("{} divisions and roots, {} differ", tally.answers, tally.differences);
    assert_eq!(tally.differences, 0);
}
