//! The bytes of a book: lent by the caller, or kept by the book and its tapes together.

use std::borrow::Cow;
use std::ops::Deref;
use std::sync::Arc;

/// Cloned without copying the bytes.
#[derive(Clone)]
pub(crate) enum Bytes<'a> {
    Lent(&'a [u8]),
    Kept(Arc<Vec<u8>>),
}

impl<'a> Bytes<'a> {
    /// Bytes of their own, to be made longer: copied where others hold them too.
    pub(crate) fn to_mut(&mut self) -> &mut Vec<u8> {
        if let Bytes::Lent(bytes) = self {
            *self = Bytes::Kept(Arc::new(bytes.to_vec()));
        }
        match self {
            Bytes::Kept(bytes) => Arc::make_mut(bytes),
            Bytes::Lent(_) => unreachable!("lent bytes were copied"),
        }
    }

    /// The same bytes, needing nobody who lent them: lent ones are copied.
    pub(crate) fn into_kept(self) -> Bytes<'static> {
        match self {
            Bytes::Lent(bytes) => Bytes::Kept(Arc::new(bytes.to_vec())),
            Bytes::Kept(bytes) => Bytes::Kept(bytes),
        }
    }

    /// The bytes given back: copied only where others hold them too.
    pub(crate) fn into_cow(self) -> Cow<'a, [u8]> {
        match self {
            Bytes::Lent(bytes) => Cow::Borrowed(bytes),
            Bytes::Kept(bytes) => Cow::Owned(Arc::try_unwrap(bytes).unwrap_or_else(|held| held.to_vec())),
        }
    }
}

impl<'a> From<Cow<'a, [u8]>> for Bytes<'a> {
    fn from(bytes: Cow<'a, [u8]>) -> Self {
        match bytes {
            Cow::Borrowed(bytes) => Bytes::Lent(bytes),
            Cow::Owned(bytes) => Bytes::Kept(Arc::new(bytes)),
        }
    }
}

impl Deref for Bytes<'_> {
    type Target = [u8];

    fn deref(&self) -> &[u8] {
        match self {
            Bytes::Lent(bytes) => bytes,
            Bytes::Kept(bytes) => bytes,
        }
    }
}
