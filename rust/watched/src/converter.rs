//! The area lent for one conversion after the other, and the promises about it (document 02, \[1\]).

use crate::area::{Area, Fate};
use crate::lending::reason;
use compare::{Conversion, Prng};
use gumbyra::Refusal;
use std::panic::{catch_unwind, AssertUnwindSafe};

/// The converter's call, `gumbyra::convert`, or what stands in for it.
pub type Call = for<'a> fn(&[u8], &'a mut [u8]) -> Result<&'a [u8], Refusal>;

/// A converter with an area to write into.
pub struct Converter {
    call: Call,
    area: Area,
}

impl Converter {
    /// An area for the converter.
    pub fn new() -> Converter {
        Converter::to(gumbyra::convert)
    }

    /// An area for what stands in for the converter.
    pub fn to(call: Call) -> Converter {
        Converter { call, area: Area::new(6) }
    }

    /// Converts a draft into an area of this length, full of noise. The same draft in the same length meets the same noise. An
    /// error tells why there is no answer.
    pub fn run(&mut self, draft: &[u8], length: usize) -> Result<Conversion, String> {
        let area = self.area.lend(length, &mut Prng::of_bytes(draft));
        let start = area.as_ptr();
        let run = || match (self.call)(draft, area) {
            Ok(file) => {
                assert!(file.as_ptr() == start, "the file is not at the start of the area");
                Ok(file.to_vec())
            }
            Err(refusal) => Err(refusal.number()),
        };
        catch_unwind(AssertUnwindSafe(run)).map_err(reason)
    }

    /// The promise that is broken if this was the outcome of the last run: bytes of the area past the result are kept, and after a
    /// refusal it is as it was.
    pub fn broken(&self, conversion: &Conversion) -> Option<String> {
        let fate = match conversion {
            Ok(file) => Fate::Begins(file.clone()),
            Err(_) => Fate::Kept,
        };
        self.area.broken(&fate).map(|broken| format!("area: {broken}"))
    }

    /// Converts a draft and looks after every promise. An error tells which is broken.
    pub fn watch(&mut self, draft: &[u8], length: usize) -> Result<Conversion, String> {
        let conversion = self.run(draft, length)?;
        self.broken(&conversion).map_or(Ok(conversion), Err)
    }

    /// The converter as a converting function.
    ///
    /// # Panics
    /// If a promise is broken.
    pub fn convert(&mut self, draft: &[u8], length: usize) -> Conversion {
        self.watch(draft, length).unwrap_or_else(|broken| panic!("{broken}: {draft:02x?} in {length} bytes"))
    }
}

impl Default for Converter {
    fn default() -> Converter {
        Converter::new()
    }
}
