//! Work on all cores, or on as many threads as are asked for.
use crate::error::Error;

/// Stack of a thread: a feed needs 256,000 bytes.
const STACK: usize = 4 << 20;

/// A pool of so many threads; none asked for is one for each core.
pub fn pool(threads: Option<usize>) -> Result<rayon::ThreadPool, Error> {
    rayon::ThreadPoolBuilder::new()
        .num_threads(threads.unwrap_or(0))
        .stack_size(STACK)
        .build()
        .map_err(|error| Error::Words(format!("no threads could be started ({error}); try --threads 1")))
}
