//! Texts whose calls that take memory return a refusal.
use crate::alloc::{AllocError, Global};
use crate::memory::asked;
use std::fmt::{self, Debug, Display, Write};
use std::marker::PhantomData;
use std::ops::Deref;

/// Rust's text.
#[derive(PartialEq, Eq)]
pub struct String<A = Global> {
    text: std::string::String,
    alloc: PhantomData<A>,
}

impl<A> String<A> {
    pub fn of(text: std::string::String) -> Self {
        String { text, alloc: PhantomData }
    }

    pub fn from_str(alloc: A, text: &str) -> Result<Self, AllocError> {
        text.to_string_in(alloc)
    }

    pub fn as_str(&self) -> &str {
        &self.text
    }
}

impl<A> Deref for String<A> {
    type Target = str;

    fn deref(&self) -> &str {
        &self.text
    }
}

impl<A> Debug for String<A> {
    fn fmt(&self, f: &mut fmt::Formatter<'_>) -> fmt::Result {
        Debug::fmt(&self.text, f)
    }
}

impl<A> Display for String<A> {
    fn fmt(&self, f: &mut fmt::Formatter<'_>) -> fmt::Result {
        Display::fmt(&self.text, f)
    }
}

/// A text to which a write fails where memory is refused.
struct Growing(std::string::String);

impl Write for Growing {
    fn write_str(&mut self, text: &str) -> fmt::Result {
        asked(|| self.0.try_reserve(text.len())).map_err(|AllocError| fmt::Error)?;
        self.0.push_str(text);
        Ok(())
    }
}

/// For `format!`. As in the kit, an error of what is formatted is a refusal too.
pub fn formatted<A>(_alloc: A, text: fmt::Arguments<'_>) -> Result<String<A>, AllocError> {
    let mut growing = Growing(std::string::String::new());
    growing.write_fmt(text).map_err(|fmt::Error| AllocError)?;
    Ok(String::of(growing.0))
}

/// `to_string(alloc)`
pub trait ToStringIn: Display {
    fn to_string_in<A>(&self, alloc: A) -> Result<String<A>, AllocError> {
        formatted(alloc, format_args!("{self}"))
    }
}

impl<T: Display + ?Sized> ToStringIn for T {}

#[cfg(test)]
mod tests {
    use super::{String, ToStringIn, formatted};
    use crate::alloc::{AllocError, Global};
    use std::fmt;

    /// What can't be formatted.
    struct Failing;

    impl fmt::Display for Failing {
        fn fmt(&self, f: &mut fmt::Formatter<'_>) -> fmt::Result {
            f.write_str("begun")?;
            Err(fmt::Error)
        }
    }

    #[test]
    fn what_is_formatted_is_the_text() {
        let text = formatted(Global, format_args!("{} of {:?}", 1, "é")).unwrap();
        assert_eq!(text.as_str(), "1 of \"é\"");
        assert_eq!(String::from_str(Global, "é").unwrap().as_str(), "é");
    }

    #[test]
    fn what_fails_is_a_refusal() {
        assert_eq!(Failing.to_string_in(Global), Err(AllocError));
    }
}
