//! The store of a seed, with some set committed in it, on standard output, for the tests of the programs `export` and `import`. Seed 0 has the
//! longest stream, seed 1 an empty one. Argument: the seed.

mod committed;
#[allow(dead_code)]
mod model;
mod random;
mod redis;

use random::Random;
use std::io::Write;

fn main() -> std::io::Result<()> {
    let seed = std::env::args().nth(1).and_then(|a| a.parse().ok()).expect("a seed");
    let mut r = Random(seed);
    let set = committed::by_seed(&mut r, seed);
    std::io::stdout().write_all(&committed::store(&mut r, &set))
}
