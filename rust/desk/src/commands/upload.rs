//! `upload`: a controller's type list into a book.

use super::{after, counted};
use crate::args::Call;
use crate::json::Json;
use crate::told::{Failure, Told};
use std::fmt::Write;
use typebook::{Upload, UploadError};

fn refused(error: UploadError) -> Failure {
    Failure::told(error)
}

/// The book of an upload.
pub fn upload(bytes: &[u8], call: &Call) -> Result<Told, Failure> {
    let upload = Upload::parse(bytes).map_err(refused)?;
    let (book, unfit) = match call.fitting {
        true => upload.fitting(call.width).map_err(refused)?,
        false => (upload.book(call.width).map_err(refused)?, Vec::new()),
    };
    let types = book.types().count();
    let mut text = format!(
        "{} of the upload: {} of {}\n",
        match upload.entries().len() {
            1 => "1 entry".to_string(),
            n => format!("{n} entries"),
        },
        counted(types as u64, "type"),
        counted(book.blocks(), "block"),
    );
    for error in &unfit {
        let _ = writeln!(text, "  left out: {error}");
    }
    if call.output.is_none() {
        text += "no file was written: --output BOOK names one\n";
    }
    let left = unfit.iter().map(|error| {
        Json::object([
            ("entry", Json::text(&error.entry)),
            ("at", Json::count(error.at)),
            ("words", Json::text(&error.fault.to_string())),
        ])
    });
    let json = Json::object([
        ("entries", Json::count(upload.entries().len())),
        ("types", Json::count(types)),
        ("blocks", Json::number(book.blocks())),
        ("left_out", Json::list(left)),
    ]);
    after(call, book.bytes(), Told::new(text, json))
}
