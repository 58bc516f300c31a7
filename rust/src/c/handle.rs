//! The handle of a dispatcher, which a caller in C keeps.
use crate::crates::mapf_player::Dispatch;
use crate::rattle_std::Box;
use crate::rattle_std::alloc::Global;
use std::boxed;
use std::mem::replace;
use std::ptr::null_mut;

/// The flag of a handle that has a dispatcher.
const MADE: u32 = 1;

/// A dispatcher, or none: `mapf_dispatcher` of the header.
#[repr(C)]
#[derive(Debug)]
pub struct Dispatcher {
    kept: *mut [Dispatch; 1],
    /// `MADE` if there is one, else 0.
    is_made: u32,
}

impl Dispatcher {
    /// Returns a handle without a dispatcher.
    pub fn none(_alloc: Global) -> Dispatcher {
        Dispatcher { kept: null_mut(), is_made: 0 }
    }

    /// Returns the handle of this dispatcher.
    pub fn of(dispatch: Box<Dispatch>) -> Dispatcher {
        Dispatcher { kept: boxed::Box::into_raw(Box::into_std(dispatch)), is_made: MADE }
    }

    /// Takes the dispatcher out of the handle, if there is one.
    pub fn take(&mut self, alloc: Global) -> Option<Box<Dispatch>> {
        let Dispatcher { kept, is_made } = replace(self, Dispatcher::none(alloc));
        if is_made != MADE {
            return None;
        }
        // SAFETY: a handle that says so was made by `of`, and nothing took the dispatcher since.
        Some(Box::from_std(unsafe { boxed::Box::from_raw(kept) }))
    }
}
