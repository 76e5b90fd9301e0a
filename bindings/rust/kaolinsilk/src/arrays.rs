//! Arrays of a program as numbers.
use std::ops::Range;

use crate::error::{Error, Result};
use crate::job::Job;
use kaolinsilk_sys as sys;

/// Where a shared array or scalar of a program lies in the cells of its job.
#[derive(Clone, Copy, Debug, PartialEq, Eq, Hash)]
pub struct Extent {
    /// The first of its cells.
    pub first: usize,
    /// How many cells it has.
    pub length: usize,
    /// How many columns each row has, if its places have two indices.
    pub columns: Option<usize>,
    /// Whether it is no scalar.
    pub is_array: bool,
}

impl Extent {
    /// The numbers of its cells.
    pub fn range(&self) -> Range<usize> {
        self.first..self.first + self.length
    }

    /// Its values, of all cells of the job.
    ///
    /// # Panics
    ///
    /// Where these are not all cells of the job.
    pub fn of<'a>(&self, cells: &'a [u32]) -> &'a [u32] {
        &cells[self.range()]
    }
}

impl From<sys::ks_place> for Extent {
    fn from(told: sys::ks_place) -> Extent {
        Extent {
            first: told.first as usize,
            length: told.length as usize,
            columns: (told.columns > 0).then_some(told.columns as usize),
            is_array: told.is_array == 1,
        }
    }
}

/// That of the array of this name in a text that is not refused.
pub(crate) fn extent_in(text: &str, name: &str) -> Result<Option<Extent>> {
    let mut told = sys::ks_place::default();
    // SAFETY: the text, the name and the place for what is told are borrowed for the call.
    let status = unsafe {
        sys::ks_place_of(
            text.as_ptr(),
            text.len(),
            name.as_ptr(),
            name.len(),
            &mut told,
        )
    };
    match status {
        sys::KS_DONE => Ok(Some(told.into())),
        sys::KS_FAILED => Ok(None),
        _ => Err(Error::MEMORY),
    }
}

/// What is given, for the library.
pub(crate) fn given(values: &[(&str, &[u32])]) -> Result<Vec<sys::ks_given>> {
    let mut given = Vec::new();
    given.try_reserve_exact(values.len())?;
    given.extend(values.iter().map(|(name, values)| sys::ks_given {
        name: name.as_ptr(),
        name_length: name.len(),
        values: values.as_ptr(),
        values_length: values.len(),
    }));
    Ok(given)
}

/// Why the library refuses what is given of a job.
pub(crate) fn unfit(job: &Job, values: &[(&str, &[u32])]) -> Result<Error> {
    for (number, (name, values)) in (1..).zip(values) {
        match job.extent(name)? {
            None => return Ok(Error::setting(number, "UnknownName", NO_ARRAY)),
            Some(extent) if extent.length != values.len() => {
                return Ok(Error::setting(number, "WrongLength", NOT_SO_MANY));
            }
            Some(_) => {}
        }
    }
    Ok(Error::MEMORY)
}

const NO_ARRAY: &str = "the text declares no shared array or scalar of this name";
const NOT_SO_MANY: &str = "there must be as many values as places";
