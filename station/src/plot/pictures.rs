use super::{soft, steps, Chi, Mark, Waterfall};
use crate::{error::Error, receive::Found};
use dimpstea::{Complex, Detection, Layout, Receiver, Tables};
use std::path::{Path, PathBuf};

/// Detections that are marked at most, and those of them whose steps and soft bits are drawn.
const MARKS: usize = 1000;
const STEPS: usize = 20;

/// The pictures of one layout's receiver, for `receive --plot DIR`. `receive` calls `fed` after each feed, `found`
/// for each detection, in order, and `finish` at the end, also after Ctrl-C.
pub struct Pictures {
    folder: PathBuf,
    layout: Layout,
    waterfall: Waterfall,
    chi: Chi,
    detections: Vec<Detection>,
    marks: Vec<Mark>,
    written: Result<Vec<PathBuf>, Error>,
}

impl Pictures {
    /// Pictures to be written to a folder, which is made where it is missing.
    pub fn new(folder: &Path, layout: &Layout) -> Result<Self, Error> {
        std::fs::create_dir_all(folder).map_err(|error| Error::io(folder, "making the folder", &error))?;
        Ok(Self {
            folder: folder.into(),
            layout: layout.clone(),
            waterfall: Waterfall::new(0),
            chi: Chi::new(layout),
            detections: Vec::new(),
            marks: Vec::new(),
            written: Ok(Vec::new()),
        })
    }

    /// These samples were fed, and left the receiver so.
    pub fn fed(&mut self, receiver: &Receiver, tables: &Tables, samples: &[Complex]) {
        self.waterfall.take(samples);
        self.chi.take(receiver, tables);
    }

    /// A detection was released.
    pub fn found(&mut self, tables: &Tables, found: &Found) {
        if self.detections.len() < MARKS {
            self.detections.push(found.detection);
            self.marks.extend(found.located.iter().map(|located| Mark::of(&self.layout, located)));
        }
        if let (Ok(reading), true) = (&found.reading, self.detections.len() <= STEPS) {
            let file = self.file(&format!("steps-{:010}", found.position()));
            let drawn = steps(&file, &self.layout, &reading.steps);
            self.note(file, drawn);
            let file = self.file(&format!("soft-{:010}", found.position()));
            let drawn = soft(&file, &self.layout, tables, reading);
            self.note(file, drawn);
        }
    }

    /// Writes the pictures, and answers with their files.
    pub fn finish(mut self) -> Result<Vec<PathBuf>, Error> {
        let file = self.file("chi");
        let drawn = self.chi.write(&file, &self.detections);
        self.note(file, drawn);
        let file = self.file("waterfall");
        let drawn = self.waterfall.write(&file, &self.marks);
        self.note(file, drawn);
        self.written
    }

    fn file(&self, what: &str) -> PathBuf {
        self.folder.join(format!("{}-{}-{what}.svg", self.layout.bandwidth, self.layout.record))
    }

    /// Keeps the file's name, or the first error.
    fn note(&mut self, file: PathBuf, drawn: Result<(), Error>) {
        if let Ok(files) = &mut self.written {
            match drawn {
                Ok(()) => files.push(file),
                Err(error) => self.written = Err(error),
            }
        }
    }
}
