//! What the counted lines of a program cost.
use std::borrow::Cow;
use std::fmt;

use crate::fields::{number, unquoted};

/// What each counted line of a program costs, as `pramx cost --lines` prints it; it is displayed byte
/// for byte.
///
/// ```
/// let text = "pardo 1\nrule crew\nprocs i < 4\nshared A[4]\ncode\nif i < 3\nA[i] := i\nend\n";
/// let costs = kaolinsilk::Job::parse(text)?.cost_by_lines()?;
/// let line = costs.rows().next().expect("the assignment is counted");
/// assert_eq!((line.line, line.time, line.operations, line.most), (7, 1, 3, 3));
/// assert_eq!(line.text, "A[i] := i");
/// # Ok::<(), kaolinsilk::Error>(())
/// ```
#[derive(Clone, Debug, PartialEq, Eq)]
pub struct LineCosts {
    text: String,
}

impl LineCosts {
    pub(crate) fn new(text: String) -> LineCosts {
        LineCosts { text }
    }

    /// The comma-separated records, their header before them.
    pub fn text(&self) -> &str {
        &self.text
    }

    /// What each line costs, in order.
    pub fn rows(&self) -> impl Iterator<Item = LineCost<'_>> {
        let records = self.text.split('\n').skip(1);
        records.filter_map(LineCost::of_record)
    }
}

impl fmt::Display for LineCosts {
    fn fmt(&self, f: &mut fmt::Formatter<'_>) -> fmt::Result {
        f.write_str(&self.text)
    }
}

/// What a counted line costs.
#[derive(Clone, Debug, PartialEq, Eq, Hash)]
pub struct LineCost<'a> {
    /// Its number, from 1.
    pub line: u64,
    /// How often it comes up.
    pub times: u64,
    /// Its time: how often it does so while some processor is active.
    pub time: u64,
    /// Its operations: how often a processor is active in it.
    pub operations: u64,
    /// The most processors that are active at a time.
    pub most: u32,
    /// The line as it stands.
    pub text: Cow<'a, str>,
}

impl<'a> LineCost<'a> {
    fn of_record(record: &'a str) -> Option<LineCost<'a>> {
        let mut fields = record.splitn(6, ',');
        Some(LineCost {
            line: number(fields.next()?)?,
            times: number(fields.next()?)?,
            time: number(fields.next()?)?,
            operations: number(fields.next()?)?,
            most: number(fields.next()?)?,
            text: unquoted(fields.next()?),
        })
    }
}

#[cfg(test)]
mod tests {
    use super::LineCosts;

    #[test]
    fn a_line_stands_in_its_record_as_it_is() {
        let text = "line,times,time,operations,most,text\n\
            7,3,2,5,4,A[i] := i\n\
            8,1,1,1,1,\"x := B[i, 1] ; \"\"one\"\", two\"\n";
        let costs = LineCosts::new(text.to_owned());
        let rows: Vec<_> = costs.rows().collect();
        assert_eq!((rows[0].line, rows[0].times, rows[0].time), (7, 3, 2));
        assert_eq!((rows[0].operations, rows[0].most), (5, 4));
        assert_eq!(rows[1].text, "x := B[i, 1] ; \"one\", two");
        assert_eq!((rows.len(), costs.to_string()), (2, text.to_owned()));
    }
}
