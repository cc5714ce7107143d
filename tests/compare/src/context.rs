//! What a running case shares: its random numbers, its counts, and the form of a failure.

use crate::rng::Rng;
use crate::tally::Tally;
use std::path::PathBuf;

/// The text that describes a failure so that it can be repeated.
pub struct Failure(pub String);

/// The end of a case or of a part of it.
pub type Outcome = Result<(), Failure>;

/// The state of one running case.
pub struct Context {
    pub rng: Rng,
    pub quick: bool,
    pub samples: Option<PathBuf>,
    pub comparisons: u64,
    pub tally: Tally,
    /// How the image at hand was made, for the report of a failure.
    pub recipe: String,
}

impl Context {
    /// An amount of work: the whole, or about a tenth of it in a quick run.
    pub fn amount(&self, whole: usize) -> usize {
        if self.quick {
            whole.div_ceil(10)
        } else {
            whole
        }
    }

    /// Compares two things that are not answers of a call.
    pub fn same<T: PartialEq + std::fmt::Debug>(
        &mut self,
        what: &str,
        got: T,
        wanted: T,
    ) -> Outcome {
        self.comparisons += 1;
        if got == wanted {
            return Ok(());
        }
        Err(Failure(format!(
            "  recipe:    {}\n  compared:  {what}\n  wanted:    {}\n  found:     {}",
            self.recipe,
            cut(format!("{wanted:?}")),
            cut(format!("{got:?}"))
        )))
    }
}

/// A text, or its start with its length and hash if it is long.
fn cut(text: String) -> String {
    if text.len() <= 2_000 {
        return text;
    }
    let start: String = text.chars().take(400).collect();
    let hash = crate::rng::hash(text.as_bytes());
    format!(
        "{start}.. ({} characters with hash {hash:016x})",
        text.len()
    )
}
