//! A document as a list of events.

use crate::{compile, compile_within, ffi, Attributes, Error, Event, Limits, Options, Rendered};

/// Events, and the bytes that they refer to: those of a parser's document, or the texts that the
/// parser found in it.
#[derive(Clone, Debug, Default, Eq, PartialEq)]
#[non_exhaustive]
pub struct Document {
    /// The bytes.
    pub bytes: Vec<u8>,
    /// The events.
    pub events: Vec<Event>,
}

impl Document {
    /// Compiles the document to HTML.
    ///
    /// # Errors
    ///
    /// Those of [`compile`](crate::compile).
    pub fn compile(&self, options: &Options) -> Result<String, Error> {
        compile(&self.events, &self.bytes, options, &[])
    }

    /// Compiles the document to HTML, within limits.
    ///
    /// # Errors
    ///
    /// Those of [`compile_within`](crate::compile_within).
    pub fn compile_within(&self, options: &Options, limits: Limits) -> Result<String, Error> {
        compile_within(&self.events, &self.bytes, options, &[], limits)
    }

    /// Compiles the document to HTML with attributes, within limits, and returns also the headings
    /// that got an `id`. The headings' own texts don't count towards the limits.
    ///
    /// # Errors
    ///
    /// Those of [`compile_attributed`](crate::compile_attributed), [`Error::OutputTooLong`] and
    /// [`Error::TooMuchWork`].
    pub fn compile_attributed(
        &self,
        options: &Options,
        attributes: &Attributes,
        limits: Limits,
    ) -> Result<Rendered, Error> {
        ffi::compile_attributed(&self.events, &self.bytes, options, &[], attributes, limits)
    }
}
