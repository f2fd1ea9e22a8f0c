//! Stands where the library would: a second, sound copy of the model.
//! Built with the feature `self-test`, to try the comparison without the library.

pub use crate::model::Model as Library;

/// What the comparison is made with.
pub const NAME: &str = "a second copy of the model";

/// No driver is needed, and one that is given is not started.
pub fn library(_given: Option<&str>) -> Result<Library, String> {
    Ok(Library::sound())
}
