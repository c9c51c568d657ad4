//! What a command answers.

use crate::json::Json;
use std::fmt::Display;
use typebook::{PlanError, Refusal};

/// An answer, for people and for programs.
pub struct Told {
    /// For standard output.
    pub text: String,
    /// The same with `--json`.
    pub json: Json,
    /// Words for standard error, where the answer isn't whole: the status is 1 then.
    pub refused: Option<String>,
}

impl Told {
    /// A whole answer.
    pub fn new(text: String, json: Json) -> Self {
        let refused = None;
        Self { text, json, refused }
    }
}

/// Why there is no answer.
#[derive(Debug)]
pub enum Failure {
    /// The tool was called wrongly.
    Usage(String),
    /// A refusal, or a file that can't be used.
    Refused {
        /// For standard error.
        words: String,
        /// For standard output with `--json`.
        json: Json,
    },
}

impl Failure {
    /// Something that has no number among document 01's refusals.
    pub fn told(words: impl Display) -> Self {
        Self::numbered(None, words)
    }

    /// A refusal with its number, if it has one.
    pub fn numbered(number: Option<u8>, words: impl Display) -> Self {
        let words = words.to_string();
        let json = Json::object([
            ("refused", number.map_or(Json::Null, Json::number)),
            ("words", Json::text(&words)),
        ]);
        Self::Refused { words, json }
    }
}

impl From<Refusal> for Failure {
    fn from(refusal: Refusal) -> Self {
        Self::numbered(Some(refusal.number()), refusal)
    }
}

impl From<PlanError> for Failure {
    fn from(error: PlanError) -> Self {
        Self::numbered(Some(error.number()), error)
    }
}
