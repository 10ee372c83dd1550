//! Names of files, and their components.

use std::path;
use v_frame_proved::support::AllocError;
use v_frame_proved::support::memory::TryPush;

/// The name of a file, which is UTF-8.
pub struct PathBuf(path::PathBuf);

impl PathBuf {
    /// Returns the name with this text.
    #[allow(clippy::should_implement_trait)] // It fails if memory runs out.
    pub fn from_str(text: &str) -> Result<Self, AllocError> {
        let mut name = PathBuf(path::PathBuf::new());
        name.append(text)?;
        Ok(name)
    }

    /// Returns the name itself.
    pub fn as_path(&self) -> &Self {
        self
    }

    /// Returns the text of the name.
    pub fn as_str(&self) -> &str {
        self.0.to_str().unwrap_or_default()
    }

    /// Returns the text of the name.
    pub fn into_string(self) -> String {
        self.0.into_os_string().into_string().unwrap_or_default()
    }

    /// Removes the last component. Returns `false` if there is none.
    pub fn pop(&mut self) -> bool {
        self.0.pop()
    }

    /// Appends a component. An absolute name replaces the whole name.
    fn append(&mut self, name: &str) -> Result<(), AllocError> {
        self.0
            .try_reserve(name.len().saturating_add(1))
            .map_err(|_| AllocError)?;
        self.0.push(name);
        Ok(())
    }
}

impl TryPush<&PathBuf> for PathBuf {
    fn try_push(&mut self, name: &PathBuf) -> Result<(), AllocError> {
        self.append(name.as_str())
    }
}

impl AsRef<str> for PathBuf {
    fn as_ref(&self) -> &str {
        self.as_str()
    }
}

impl From<String> for PathBuf {
    fn from(text: String) -> Self {
        PathBuf(path::PathBuf::from(text))
    }
}
