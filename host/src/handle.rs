use crate::lists::lists;
use std::fmt;

/// A handle: the heap's tag in the top 8 bits, the slot's index in the next 24, the generation in the low 32.
///
/// ```
/// use yexwalu::Handle;
/// let h = Handle(72_057_594_037_927_937);
/// assert_eq!((h.tag(), h.index(), h.generation()), (1, 0, 1));
/// assert!(Handle::NULL.is_null());
/// // a list of numbers is one of handles, and the other way
/// assert_eq!(Handle::list(&[7, 8]), [Handle(7), Handle(8)]);
/// assert_eq!(Handle::numbers(&[Handle(7), Handle(8)]), [7, 8]);
/// let mut out = [0; 2];
/// Handle::list_mut(&mut out)[1] = h;
/// assert_eq!(out, [0, h.0]);
/// ```
#[derive(Clone, Copy, Debug, Default, PartialEq, Eq, PartialOrd, Ord, Hash)]
#[repr(transparent)]
pub struct Handle(pub u64);

impl Handle {
    /// The handle that leads nowhere.
    pub const NULL: Handle = Handle(0);

    /// Is it the null handle?
    #[must_use]
    pub fn is_null(self) -> bool {
        self.0 == 0
    }

    /// The tag of its heap.
    #[must_use]
    pub fn tag(self) -> u8 {
        (self.0 >> 56) as u8
    }

    /// The index of its slot.
    #[must_use]
    pub fn index(self) -> u32 {
        (self.0 >> 32) as u32 & 0xff_ffff
    }

    /// The generation of the slot when the handle was made.
    #[must_use]
    pub fn generation(self) -> u32 {
        self.0 as u32
    }
}

lists!(Handle, u64, "handles");

impl From<u64> for Handle {
    fn from(number: u64) -> Handle {
        Handle(number)
    }
}

impl From<Handle> for u64 {
    fn from(handle: Handle) -> u64 {
        handle.0
    }
}

impl fmt::Display for Handle {
    fn fmt(&self, f: &mut fmt::Formatter<'_>) -> fmt::Result {
        write!(f, "{}", self.0)
    }
}
