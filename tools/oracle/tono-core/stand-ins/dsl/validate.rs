//! Stands in for the document's validation. No question reaches it.

use super::SoundDoc;

#[derive(Debug)]
pub struct ValidateError;

impl std::fmt::Display for ValidateError {
    fn fmt(&self, f: &mut std::fmt::Formatter<'_>) -> std::fmt::Result {
        f.write_str("no document is validated here")
    }
}

impl SoundDoc {
    pub fn validate(&self) -> Result<(), ValidateError> {
        Err(ValidateError)
    }
}
