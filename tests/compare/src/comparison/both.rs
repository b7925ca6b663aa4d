//! One scene on both libraries, and calls made on both.

use super::deeds::deed;
use super::guarded::Guarded;
use super::Library;
use crate::volume::answer::Refusal;
use crate::volumes::calls::{perform_and_tell, Call, Scene};

/// The same scene for the plain Rust and for the library.
pub struct Both {
    pub(super) library: Library,
    pub(super) guard: usize,
    /// Whether the last call altered the image.
    altered: bool,
    /// As it was before the last call.
    pub before: Scene,
    pub plain: Scene,
    pub other: Scene<Guarded>,
}

/// How a call ended on both libraries.
#[derive(Clone, Copy, Debug)]
pub struct Ending {
    pub answer: u64,
    pub refusal: Option<Refusal>,
    /// What it did with spare clusters.
    pub deed: Option<&'static str>,
}

impl Both {
    pub fn new(scene: Scene, library: Library, guard: usize) -> Both {
        let other = Scene {
            image: Guarded::new(&scene.image, guard),
            table: Guarded::new(&scene.table, guard),
            buffer: Guarded::new(&scene.buffer, guard),
        };
        Both {
            library,
            guard,
            altered: false,
            before: scene.clone(),
            plain: scene,
            other,
        }
    }

    /// Gives the next call this buffer.
    pub fn lend_buffer(&mut self, buffer: Vec<u8>) {
        self.other.buffer = Guarded::new(&buffer, self.guard);
        self.before.buffer.clone_from(&buffer);
        self.plain.buffer = buffer;
    }

    /// Makes the call on both; the error says where they differ.
    pub fn make(&mut self, call: &Call) -> Result<Ending, String> {
        self.make_on_both(call)
            .map_err(|what| format!("{call}: {what}"))
    }

    fn make_on_both(&mut self, call: &Call) -> Result<Ending, String> {
        // A copy has no spare room behind its bytes.
        let lent = call.clone();
        let (answer, refusal) = perform_and_tell(call, &mut self.plain);
        let theirs = (self.library)(&lent, &mut self.other);
        if answer != theirs {
            return Err(format!(
                "{} expected, {} answered",
                halves(answer),
                halves(theirs)
            ));
        }
        let ending = format!("both answer {}", halves(answer));
        self.compare_bytes()
            .map_err(|what| format!("{ending}, {what}"))?;
        if lent != *call {
            return Err(format!("{ending}, the caller's name or data was altered"));
        }
        self.altered = self.plain.image != self.before.image;
        if refusal.is_some() && (self.altered || self.others_altered()) {
            return Err(format!("{ending}, and the refusal altered something"));
        }
        let deed = match refusal {
            None => deed(call, &self.before.image, &self.plain.image),
            Some(_) => None,
        };
        Ok(Ending {
            answer,
            refusal,
            deed,
        })
    }

    /// Whether the last call altered the table or the buffer.
    fn others_altered(&self) -> bool {
        self.plain.table != self.before.table || self.plain.buffer != self.before.buffer
    }

    fn compare_bytes(&self) -> Result<(), String> {
        let Scene {
            image,
            table,
            buffer,
        } = &self.other;
        image.compare("image", &self.plain.image)?;
        table.compare("table", &self.plain.table)?;
        buffer.compare("buffer", &self.plain.buffer)
    }

    /// Takes the last call back on both.
    pub fn take_back(&mut self) {
        if self.altered {
            self.plain.image.copy_from_slice(&self.before.image);
            self.other.image.copy_from_slice(&self.before.image);
        }
        self.plain.table.copy_from_slice(&self.before.table);
        self.other.table.copy_from_slice(&self.before.table);
    }

    /// Lets the last call stand: the next one comes after it.
    pub fn go_on(&mut self) {
        if self.altered {
            self.before.image.copy_from_slice(&self.plain.image);
        }
        self.before.table.copy_from_slice(&self.plain.table);
    }
}

/// An answer's number and value.
pub fn halves(answer: u64) -> String {
    format!("{}/{}", answer >> 32, answer as u32)
}
