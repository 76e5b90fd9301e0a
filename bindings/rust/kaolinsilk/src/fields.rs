//! Numbers and words in what the library prints.
use std::borrow::Cow;
use std::str::FromStr;

/// The number that a text spells.
pub(crate) fn number<T: FromStr>(text: &str) -> Option<T> {
    text.parse().ok()
}

/// The two numbers of `i,j`.
pub(crate) fn pair(text: &str) -> Option<(u32, u32)> {
    let (first, second) = text.split_once(',')?;
    Some((number(first)?, number(second)?))
}

/// The number of a field that may be empty.
pub(crate) fn optional<T: FromStr>(text: &str) -> Option<Option<T>> {
    if text.is_empty() {
        Some(None)
    } else {
        number(text).map(Some)
    }
}

/// What a field of a record says.
pub(crate) fn unquoted(field: &str) -> Cow<'_, str> {
    let quoted = field.strip_prefix('"').and_then(|it| it.strip_suffix('"'));
    match quoted {
        Some(said) => said.replace("\"\"", "\"").into(),
        None => field.into(),
    }
}
