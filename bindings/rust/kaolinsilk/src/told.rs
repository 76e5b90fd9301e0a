//! What calls write into buffers.
use crate::error::{Error, Result};
use kaolinsilk_sys as sys;

/// How a call ended that did what it was asked for.
#[derive(Clone, Copy, Debug, PartialEq, Eq)]
pub(crate) enum Status {
    Done,
    Conflict,
    Unfinished,
}

impl Status {
    /// That of a status of the interface, if it is one.
    pub(crate) fn of(status: u32) -> Option<Status> {
        match status {
            sys::KS_DONE => Some(Status::Done),
            sys::KS_CONFLICT => Some(Status::Conflict),
            sys::KS_UNFINISHED => Some(Status::Unfinished),
            _ => None,
        }
    }

    /// That of a call that has no answer to tell more by.
    pub(crate) fn or_refused(status: u32) -> Result<Status> {
        Status::of(status).ok_or_else(|| Error::told(status, &sys::ks_answer::new()))
    }
}

/// What a call puts into a buffer that has room for so many elements; where it has more to tell, it
/// is made once more, with room for all of them. The buffer may be refused.
///
/// All that comes before a handle comes through here, so it is here that the library is seen to
/// have the interface that is declared.
pub(crate) fn filled<T: Clone + Default>(
    mut room: usize,
    mut call: impl FnMut(&mut [T], &mut sys::ks_answer) -> u32,
) -> Result<(Status, Vec<T>)> {
    assert_eq!(
        sys::ks_abi_version(),
        sys::KS_ABI_VERSION,
        "the interface of libkaolinsilk"
    );
    loop {
        let mut buffer = zeros(room)?;
        let mut answer = sys::ks_answer::new();
        let status = call(&mut buffer, &mut answer);
        let Some(ended) = Status::of(status) else {
            return Err(Error::told(status, &answer));
        };
        room = usize::try_from(answer.length).map_err(|_| Error::MEMORY)?;
        if room <= buffer.len() {
            buffer.truncate(room);
            return Ok((ended, buffer));
        }
    }
}

/// A buffer for so many elements, if there is memory for it.
pub(crate) fn zeros<T: Clone + Default>(room: usize) -> Result<Vec<T>> {
    let mut buffer = Vec::new();
    buffer.try_reserve_exact(room)?;
    buffer.resize(room, T::default());
    Ok(buffer)
}

/// As [`filled`], of a call that prints.
pub(crate) fn printed(
    room: usize,
    call: impl FnMut(&mut [u8], &mut sys::ks_answer) -> u32,
) -> Result<(Status, String)> {
    let (status, bytes) = filled(room, call)?;
    let text = String::from_utf8(bytes).expect("the library prints ASCII alone");
    Ok((status, text))
}

/// A copy, if there is memory for it.
pub(crate) fn copy<T: Copy>(items: &[T]) -> Result<Vec<T>> {
    let mut copied = Vec::new();
    copied.try_reserve_exact(items.len())?;
    copied.extend_from_slice(items);
    Ok(copied)
}
