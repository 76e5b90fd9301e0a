//! Answers of programs by their names.
use crate::fields::number;

/// What the shared arrays and scalars of a program hold at the end, by their names; of a text of
/// the machine there is one array, `cells`.
///
/// ```
/// use kaolinsilk::{Job, Outcome, Plan, RunAnswer, run};
///
/// let text = "pardo 1\nrule crew\nprocs i < 4\nshared A[4]\nshared s = 7\ncode\nA[i] := i * i\n";
/// let job = Job::parse(text)?;
/// let values = job.values()?.expect("no conflict");
/// assert_eq!(values.array("A"), Some(&[0, 1, 4, 9][..]));
/// assert_eq!(values.scalar("s"), Some(7));
///
/// let RunAnswer::Ended(Outcome::Done(cells)) = run(&job, 4, &Plan::new())? else { panic!() };
/// assert_eq!(job.named(&cells)?, values);
/// # Ok::<(), kaolinsilk::Error>(())
/// ```
#[derive(Clone, Debug, Default, PartialEq, Eq)]
pub struct Values {
    names: Vec<(String, Vec<u32>)>,
    // How many columns the arrays of two indices have.
    widths: Vec<(String, usize)>,
}

impl Values {
    /// The values of an array, those of two indices row by row; of a scalar its one value.
    pub fn array(&self, name: &str) -> Option<&[u32]> {
        let found = self.names.iter().find(|it| it.0 == name)?;
        Some(&found.1)
    }

    /// The rows of an array of two indices.
    ///
    /// ```
    /// let text = "pardo 1\nrule crew\nprocs i < 4\nshared A[2, 2]\ncode\nA[i / 2, i % 2] := i\n";
    /// let values = kaolinsilk::Job::parse(text)?.values()?.expect("no conflict");
    /// let rows: Vec<&[u32]> = values.rows("A").expect("two indices").collect();
    /// assert_eq!(rows, [&[0, 1][..], &[2, 3]]);
    /// # Ok::<(), kaolinsilk::Error>(())
    /// ```
    pub fn rows(&self, name: &str) -> Option<impl Iterator<Item = &[u32]>> {
        let (_, width) = self.widths.iter().find(|it| it.0 == name)?;
        Some(self.array(name)?.chunks(*width))
    }

    /// The value of a scalar, or of an array of one place.
    pub fn scalar(&self, name: &str) -> Option<u32> {
        match self.array(name)? {
            &[value] => Some(value),
            _ => None,
        }
    }

    /// The names with their values, in the order of the program.
    pub fn iter(&self) -> impl Iterator<Item = (&str, &[u32])> {
        self.names
            .iter()
            .map(|(name, values)| (name.as_str(), values.as_slice()))
    }

    // All cells, by their one name.
    pub(crate) fn of_cells(cells: &[u32]) -> Values {
        Values {
            names: vec![("cells".to_owned(), cells.to_owned())],
            widths: Vec::new(),
        }
    }

    // Names of the same lengths over other cells, one after another.
    pub(crate) fn with(mut self, cells: &[u32]) -> Values {
        let mut left = cells.iter();
        for value in self.names.iter_mut().flat_map(|it| &mut it.1) {
            *value = left.next().copied().unwrap_or(0);
        }
        self
    }

    // What the lines of an answer tell: `NAME = V V ..`, `NAME[ROW] = V V ..`, or `CELL: V`.
    pub(crate) fn of_text(text: &str) -> Option<Values> {
        let mut names: Vec<(String, Vec<u32>)> = Vec::new();
        let mut widths = Vec::new();
        let mut cells = Vec::new();
        for line in text.lines().skip(1) {
            if let Some((told, values)) = line.split_once(" = ") {
                let values: Option<Vec<u32>> = values.split(' ').map(number).collect();
                let values = values?;
                match (told.split_once('['), names.last_mut()) {
                    (Some((name, _)), Some(last)) if last.0 == name => last.1.extend(values),
                    (Some((name, _)), _) => {
                        widths.push((name.to_owned(), values.len()));
                        names.push((name.to_owned(), values));
                    }
                    (None, _) => names.push((told.to_owned(), values)),
                }
            } else if let Some((_, value)) = line.split_once(": ") {
                cells.push(number(value)?);
            }
        }
        if !cells.is_empty() {
            names.push(("cells".to_owned(), cells));
        }
        Some(Values { names, widths })
    }
}

#[cfg(test)]
mod tests {
    use super::Values;

    #[test]
    fn values_are_the_lines_of_an_answer() {
        let text = "done steps=9\nA = 3 1 4\nsum = 8\ngone processor=2 line=6\n";
        let values = Values::of_text(text).unwrap();
        assert_eq!(
            values.iter().collect::<Vec<_>>(),
            [("A", &[3, 1, 4][..]), ("sum", &[8][..])]
        );
        assert_eq!((values.scalar("sum"), values.scalar("A")), (Some(8), None));
        assert_eq!(values.array("gone"), None);
        let values = Values::of_text("done steps=1\n0: 7\n1: 0\n").unwrap();
        assert_eq!(values.array("cells"), Some(&[7, 0][..]));
        assert_eq!(Values::of_text("done steps=1\nA = x\n"), None);
    }
}
