//! Vectors: calls with the answers of the original. Each format is described in tests/NAME/README.md of the tree.

mod call;
mod fine;
mod replay;
mod ring;
mod scan;
mod tracker;

use crate::random::Random;

/// What a generator hands back: a name and the bytes of each file.
type Files = Vec<(&'static str, Vec<u8>)>;

pub fn write(what: &str, seed: &str, folder: &str) -> Result<(), String> {
    let seed = seed.parse().map_err(|_| format!("'{seed}' is no seed"))?;
    let random = Random::new(seed);
    let files: Files = match what {
        "tracker" => tracker::files(random),
        "ring" => ring::files(random),
        "demo" => replay::demo_files(random),
        "replay" => replay::files(random),
        "fine" => fine::files(random),
        "parts" => crate::parts::files(random),
        "scan" => scan::files(random),
        _ => return Err(format!("there are no vectors '{what}'")),
    };
    std::fs::create_dir_all(folder).map_err(|error| format!("{folder}: {error}"))?;
    for (name, bytes) in files {
        let path = format!("{folder}/{name}");
        std::fs::write(&path, bytes).map_err(|error| format!("{path}: {error}"))?;
    }
    Ok(())
}
