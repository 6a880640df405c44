//! Makes a cache in a new file, has four threads define class files there in the loader `app`, and
//! looks one up:
//!
//!     define FILE NAME CLASS_FILE..
//!
//! NAME is that of the class to be looked up, as java/lang/Object. docs/C.md says how to build it.

mod cmcache;

use cmcache::{Cache, Error, Prepared};
use std::ffi::CString;
use std::process::ExitCode;

const LOADER: &str = "app";
const THREADS: usize = 4;

type Result<T> = std::result::Result<T, Box<dyn std::error::Error + Send + Sync>>;

/// Defines each fourth class file, from this one on.
fn define_share(cache: &Cache, paths: &[String], first: usize) -> Result<()> {
    for path in paths.iter().skip(first).step_by(THREADS) {
        let bytes = std::fs::read(path).map_err(|cause| format!("{path}: {cause}"))?;
        let number = Prepared::new(&bytes)
            .and_then(|mut class| cache.define(LOADER, &mut class))
            .map_err(|error: Error| format!("{path}: {error}"))?;
        println!("{path} is stored: command {number}");
    }
    Ok(())
}

fn run(words: &[String]) -> Result<()> {
    let [path, name, paths @ ..] = words else {
        return Err("usage: define FILE NAME CLASS_FILE..".into());
    };
    let path = CString::new(path.as_str())?;
    cmcache::format(&path, 8, 64, 4096)?;
    let cache = Cache::open(&path)?;
    cache.add_loader(LOADER)?;
    std::thread::scope(|scope| {
        let shares: Vec<_> = (0..THREADS)
            .map(|first| scope.spawn({
                let cache = &cache;
                move || define_share(cache, paths, first)
            }))
            .collect();
        shares.into_iter().try_for_each(|share| share.join().expect("a thread panicked"))
    })?;
    let record = cache.find(LOADER, name)?;
    cache.close()?;
    println!("{name} flags {:04x} words {}", record.flags(), record.words().len());
    for word in record.words() {
        println!("{word:016x}");
    }
    Ok(())
}

fn main() -> ExitCode {
    let words: Vec<String> = std::env::args().skip(1).collect();
    match run(&words) {
        Ok(()) => ExitCode::SUCCESS,
        Err(error) => {
            eprintln!("define: {error}");
            ExitCode::FAILURE
        }
    }
}
