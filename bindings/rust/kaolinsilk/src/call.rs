//! The commands of the library, each on one text.
use crate::error::Result;
use crate::told::{Status, printed};
use kaolinsilk_sys as sys;

/// The commands that take a text and a request.
#[derive(Clone, Copy, Debug)]
pub(crate) enum Command {
    Check,
    Compile,
    Plain,
    Cost,
    Steps,
}

/// What a command prints of a text, and how it ended. The room is what its output mostly needs.
pub(crate) fn serve(
    command: Command,
    text: impl AsRef<[u8]>,
    request: &sys::ks_request,
    room: usize,
) -> Result<(Status, String)> {
    let text = text.as_ref();
    let call = match command {
        Command::Check => sys::ks_check,
        Command::Compile => sys::ks_compile,
        Command::Plain => sys::ks_plain,
        Command::Cost => sys::ks_cost,
        Command::Steps => sys::ks_steps,
    };
    printed(room, |out, answer| {
        // SAFETY: all of them are borrowed for the call, and none is another one. It writes within
        // the output and the answer, and keeps nothing.
        unsafe {
            call(
                text.as_ptr(),
                text.len(),
                request,
                out.as_mut_ptr(),
                out.len(),
                answer,
            )
        }
    })
}
