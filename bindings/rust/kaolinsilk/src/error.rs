//! Why a call did not do what it was asked for.
use std::borrow::Cow;
use std::collections::TryReserveError;
use std::ffi::c_char;
use std::fmt;

use kaolinsilk_sys as sys;

/// What was refused.
#[derive(Clone, Copy, Debug, PartialEq, Eq, Hash)]
#[non_exhaustive]
pub enum Subject {
    /// A text of the machine: it bears a fault in a line.
    Text,
    /// A program of `pardo`: it bears a fault in a line.
    Program,
    /// A plan: it bears a fault in a row.
    Plan,
    /// A step that the job does not have.
    Step,
    /// A setting that is none, or does not fit the program.
    Setting,
    /// An exercise by which nothing can be judged: it bears a fault in a line.
    Exercise,
    /// A text or a plan of more than 67,108,864 bytes.
    Size,
    /// The request itself: a number of workers, a worker's number, a grain or a window that is
    /// none.
    Request,
    /// Memory, or a thread.
    Memory,
}

impl Subject {
    fn of(status: u32, subject: u32) -> Subject {
        match subject {
            sys::KS_TEXT => Subject::Text,
            sys::KS_PROGRAM => Subject::Program,
            sys::KS_PLAN => Subject::Plan,
            sys::KS_STEP => Subject::Step,
            sys::KS_SIZE => Subject::Size,
            sys::KS_SETTING => Subject::Setting,
            sys::KS_EXERCISE => Subject::Exercise,
            sys::KS_OUT_OF_MEMORY => Subject::Memory,
            _ if status == sys::KS_MEMORY => Subject::Memory,
            _ => Subject::Request,
        }
    }

    // What is said where the library says no more.
    fn sentence(self) -> &'static str {
        match self {
            Subject::Text => "the text is refused",
            Subject::Program => "the program is refused",
            Subject::Plan => "the plan is refused",
            Subject::Step => "the job has no such step",
            Subject::Setting => "a setting is refused",
            Subject::Exercise => "nothing can be judged by the exercise",
            Subject::Size => "a text has at most 67,108,864 bytes",
            Subject::Request => "the request is refused",
            Subject::Memory => "out of memory",
        }
    }
}

/// Why a call did not do what it was asked for: what was refused, where, and why.
///
/// Where memory is refused it is an error of [`Subject::Memory`], which takes no memory itself.
///
/// ```
/// use kaolinsilk::{Job, Subject};
///
/// let text = "pardo 1\nrule common\nprocs i < 4\nshared sum\ncode\nsum = i\n";
/// let error = Job::parse(text).unwrap_err();
/// assert_eq!(error.subject(), Subject::Program);
/// assert_eq!((error.line(), error.column(), error.kind()), (Some(6), Some(5), "BadLine"));
/// assert_eq!(
///     error.to_string(),
///     "line 6, column 5: an assignment is `:=`; `=` compares"
/// );
/// ```
#[derive(Clone, Debug, PartialEq, Eq)]
pub struct Error {
    subject: Subject,
    line: u64,
    column: u32,
    kind: Cow<'static, str>,
    sentence: Cow<'static, str>,
}

/// What a call gives, or why it did not.
pub type Result<T, E = Error> = std::result::Result<T, E>;

impl Error {
    pub(crate) const MEMORY: Error = Error::new(Subject::Memory, "Memory", "out of memory");

    pub(crate) const fn new(subject: Subject, kind: &'static str, sentence: &'static str) -> Error {
        Error {
            subject,
            line: 0,
            column: 0,
            kind: Cow::Borrowed(kind),
            sentence: Cow::Borrowed(sentence),
        }
    }

    pub(crate) const fn request(sentence: &'static str) -> Error {
        Error::new(Subject::Request, "", sentence)
    }

    /// Of the setting of this number, from 1.
    pub(crate) const fn setting(number: u64, kind: &'static str, said: &'static str) -> Error {
        let mut error = Error::new(Subject::Setting, kind, said);
        error.line = number;
        error
    }

    /// What a call told that did not do what it was asked for.
    pub(crate) fn told(status: u32, answer: &sys::ks_answer) -> Error {
        let subject = Subject::of(status, answer.subject);
        match (text_of(&answer.kind), text_of(&answer.sentence)) {
            _ if subject == Subject::Memory => Error::MEMORY,
            (Ok(kind), Ok(sentence)) => Error {
                subject,
                line: answer.line,
                column: answer.column,
                kind: Cow::Owned(kind),
                sentence: Cow::Owned(sentence),
            },
            _ => Error::MEMORY,
        }
    }

    /// What was refused.
    pub fn subject(&self) -> Subject {
        self.subject
    }

    /// The line of the text or of the exercise, the record of the plan or the number of the setting,
    /// from 1, where there is one.
    pub fn line(&self) -> Option<u64> {
        (self.line > 0).then_some(self.line)
    }

    /// The column in the line of a text, from 1, where it is known.
    pub fn column(&self) -> Option<u32> {
        (self.column > 0).then_some(self.column)
    }

    /// The kind by the word that docs/FORMATS.md, docs/LANGUAGE.md, docs/PARDO.md and, of exercises,
    /// docs/TEACHING.md have for it, as `BadLine`; empty where there is none.
    pub fn kind(&self) -> &str {
        &self.kind
    }

    /// What is wrong, in a sentence.
    pub fn sentence(&self) -> &str {
        if self.sentence.is_empty() {
            self.subject.sentence()
        } else {
            &self.sentence
        }
    }
}

impl fmt::Display for Error {
    fn fmt(&self, f: &mut fmt::Formatter<'_>) -> fmt::Result {
        if let Some(line) = self.line() {
            let what = match self.subject {
                Subject::Plan => "row",
                Subject::Setting => "setting",
                _ => "line",
            };
            write!(f, "{what} {line}")?;
            if let Some(column) = self.column() {
                write!(f, ", column {column}")?;
            }
            f.write_str(": ")?;
        }
        f.write_str(self.sentence())
    }
}

impl std::error::Error for Error {}

impl From<TryReserveError> for Error {
    fn from(_: TryReserveError) -> Error {
        Error::MEMORY
    }
}

// The ASCII characters up to a 0.
fn text_of(chars: &[c_char]) -> Result<String> {
    let bytes = chars.iter().map(|&it| it as u8).take_while(|&it| it != 0);
    let mut text = String::new();
    text.try_reserve_exact(chars.len())?;
    text.extend(bytes.map(char::from).filter(char::is_ascii));
    Ok(text)
}
