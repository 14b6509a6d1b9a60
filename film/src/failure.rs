//! How a subcommand ends when it cannot answer: what the person is told, and the status.
use film_planner::Refusal;

/// Bad input or a refusal ends with status 1, a wrong command line with 2.
#[derive(Clone, Debug, PartialEq, Eq)]
pub struct Failure {
    /// One or more sentences on lines of their own; empty where there is nobody to tell.
    pub text: String,
    pub status: u8,
}

impl Failure {
    /// Bad input.
    pub fn bad(text: impl Into<String>) -> Failure {
        Failure { text: text.into(), status: 1 }
    }

    /// A wrong command line.
    pub fn usage(text: impl Into<String>) -> Failure {
        Failure { text: text.into(), status: 2 }
    }

    /// Ends without a word.
    pub fn silent(status: u8) -> Failure {
        Failure { text: String::new(), status }
    }

    /// A refusal of a call, after what it is about.
    pub fn refused(about: impl Into<String>, refusal: Refusal) -> Failure {
        Failure::bad(format!("{}\n{}", about.into(), sentence(refusal)))
    }

    /// The same failure with one more line, that says what to do.
    pub fn hint(mut self, line: &str) -> Failure {
        self.text.push('\n');
        self.text.push_str(line);
        self
    }
}

/// The number and the document's sentence.
pub fn sentence(refusal: Refusal) -> String {
    format!("refusal {}: {}", refusal.number(), refusal.sentence())
}
