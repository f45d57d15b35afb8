//! The three files of a recording. Both sides read them through here, so that reading is timed apart from the rest.

use crate::clock;
use crate::replay::Recording;
use std::fs::File;
use std::io::{Read, Seek};
use std::time::Duration;

pub struct Inputs {
    files: [File; 3],
    /// How long the reads took since the files were rewound.
    pub reading: Duration,
}

impl Inputs {
    /// Writes the recording into a folder: events, far and near.
    pub fn of(folder: &str, recording: &Recording) -> Inputs {
        std::fs::create_dir_all(folder).expect(folder);
        let file = |name: &str, bytes: &[u8]| {
            let path = format!("{folder}/{name}");
            std::fs::write(&path, bytes).expect(&path);
            File::open(&path).expect(&path)
        };
        Inputs {
            files: [
                file("events", &recording.events),
                file("far", &recording.far),
                file("near", &recording.near),
            ],
            reading: Duration::ZERO,
        }
    }

    pub fn rewind(&mut self) {
        for file in &mut self.files {
            file.rewind().expect("a file can be rewound");
        }
        self.reading = Duration::ZERO;
    }

    /// One read of file 0, 1 or 2.
    pub fn read(&mut self, which: usize, into: &mut [u8]) -> usize {
        let start = clock::now();
        let count = self.files[which].read(into).expect("a file can be read");
        self.reading += clock::now() - start;
        count
    }
}
