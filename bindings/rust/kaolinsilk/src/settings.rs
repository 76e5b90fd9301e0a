//! Settings of programs.
use std::fmt::Write;

use crate::error::Result;
use crate::told::filled;
use kaolinsilk_sys as sys;

/// What constants, shared scalars and shared arrays of a program are set to from outside.
///
/// A name that the program does not have, or more or fewer values than it has places, are found
/// where the settings are used, as are names that are none.
///
/// ```
/// use kaolinsilk::{Job, Settings, Subject};
///
/// let text = "pardo 1\nrule crew\nconst n = 2\nprocs i < n\nshared A[n]\ncode\nA[i] := A[i] + i\n";
/// for n in [2, 4, 8] {
///     let settings = Settings::new().set("n", [n]).set("A", vec![7; n as usize]);
///     let cost = Job::parse_with(text, &settings)?.cost()?;
///     assert_eq!((cost.time, cost.operations), (Some(1), Some(n.into())));
/// }
/// let error = Job::parse_with(text, &Settings::new().set("n", [2]).set("B", [1])).unwrap_err();
/// assert_eq!((error.subject(), error.kind()), (Subject::Setting, "UnknownName"));
/// assert_eq!(error.to_string(), "setting 2: the text declares no such name");
/// # Ok::<(), kaolinsilk::Error>(())
/// ```
#[derive(Clone, Debug, Default, PartialEq, Eq)]
pub struct Settings {
    text: String,
}

impl Settings {
    /// None: the program is as it stands.
    pub const fn new() -> Settings {
        Settings {
            text: String::new(),
        }
    }

    /// With one more: a constant or a shared scalar is set to a value, a shared array to as many as
    /// it has places.
    pub fn set(mut self, name: &str, values: impl AsRef<[u32]>) -> Settings {
        // What no name has becomes a sign that no name has, so that a setting is one line.
        self.text.extend(name.chars().map(|it| match it {
            '\n' | '=' => '?',
            other => other,
        }));
        for (at, value) in values.as_ref().iter().enumerate() {
            let sign = if at == 0 { '=' } else { ',' };
            write!(self.text, "{sign}{value}").expect("a string takes all that is written");
        }
        self.text.push('\n');
        self
    }

    // These, and the others after them.
    pub(crate) fn and(mut self, others: &Settings) -> Settings {
        self.text.push_str(&others.text);
        self
    }

    /// The lines `NAME=V,V,..` that the library reads.
    pub fn text(&self) -> &str {
        &self.text
    }

    // The text as these set it.
    pub(crate) fn applied(&self, text: &[u8]) -> Result<Vec<u8>> {
        let (settings, room) = (self.text.as_bytes(), text.len() + 2 * self.text.len());
        let (_, set) = filled(room, |out, answer| {
            // SAFETY: all of them are borrowed for the call, and none is another one. It writes
            // within the output and the answer, and keeps nothing.
            unsafe {
                sys::ks_set(
                    text.as_ptr(),
                    text.len(),
                    settings.as_ptr(),
                    settings.len(),
                    out.as_mut_ptr(),
                    out.len(),
                    answer,
                )
            }
        })?;
        Ok(set)
    }
}

#[cfg(test)]
mod tests {
    use super::Settings;

    #[test]
    fn a_setting_is_a_line() {
        let settings = Settings::new().set("n", [16]).set("A", vec![3, 1, 4]);
        assert_eq!(settings.text(), "n=16\nA=3,1,4\n");
        assert_eq!(Settings::new().set("n=1\nm", [2]).text(), "n?1?m=2\n");
        assert_eq!(Settings::new().set("n", []).text(), "n\n");
    }
}
