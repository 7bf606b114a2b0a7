//! Where the twin by hand has its own reader: this one has none.

/// A form that a quick reader may know.
pub trait Quick {}

impl<T> Quick for T {}

/// What a text says of a form, if the quick reader knows it.
pub fn read<T: Quick>(_text: &[u8]) -> Option<T> {
    None
}

macro_rules! quick_object {
    ($($form:tt)*) => {};
}

macro_rules! quick_variants {
    ($($form:tt)*) => {};
}

pub(crate) use {quick_object, quick_variants};
