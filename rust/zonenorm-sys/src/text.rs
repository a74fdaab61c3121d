//! A text that the library allocated.

use crate::ffi::zonenorm_octets;
use std::ffi::c_void;
use std::fmt;
use std::ops::Deref;

extern "C" {
    fn free(at: *mut c_void);
}

/// Octets that the library allocated and that this value frees. It derefs to `[u8]`.
pub struct Text(zonenorm_octets);

// The octets are this value's alone, and nothing changes them.
unsafe impl Send for Text {}
unsafe impl Sync for Text {}

impl Text {
    /// Room for what a call hands out.
    pub(crate) const NONE: zonenorm_octets = zonenorm_octets { at: std::ptr::null(), len: 0 };

    /// Takes what a call handed out.
    ///
    /// # Safety
    ///
    /// `octets` was written by one call of the library, or is `NONE`, and nothing else frees it.
    pub(crate) unsafe fn taken(octets: zonenorm_octets) -> Text {
        Text(octets)
    }
}

impl Deref for Text {
    type Target = [u8];

    fn deref(&self) -> &[u8] {
        if self.0.len == 0 {
            return &[];
        }
        // By `taken` these are octets that stay until `drop`.
        unsafe { std::slice::from_raw_parts(self.0.at, self.0.len) }
    }
}

impl Drop for Text {
    fn drop(&mut self) {
        // An empty text isn't allocated.
        if self.0.len != 0 {
            unsafe { free(self.0.at as *mut c_void) }
        }
    }
}

impl AsRef<[u8]> for Text {
    fn as_ref(&self) -> &[u8] {
        self
    }
}

impl PartialEq for Text {
    fn eq(&self, other: &Text) -> bool {
        **self == **other
    }
}

impl Eq for Text {}

impl fmt::Debug for Text {
    fn fmt(&self, f: &mut fmt::Formatter<'_>) -> fmt::Result {
        fmt::Debug::fmt(&String::from_utf8_lossy(self), f)
    }
}
