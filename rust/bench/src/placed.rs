//! The library at one placement: a shared object with so much padding before the code, and the functions that are measured.

use crate::object::Object;
use cindrolf::raw::{self, ChainCount, PlanCounts, WindowFound};
use std::ffi::{CStr, c_void};
use std::mem::transmute;
use std::path::Path;

// Each function's type is compared with the crate's own declaration of it.
macro_rules! functions {
    ($($field:ident = $symbol:ident($($given:ty),*) -> $answer:ty;)*) => {
        struct Functions {
            $($field: unsafe extern "C" fn($($given),*) -> $answer,)*
        }

        impl Functions {
            fn of(object: &Object) -> Result<Self, String> {
                $(const _: unsafe extern "C" fn($($given),*) -> $answer = raw::$symbol;)*
                Ok(Functions {
                    $($field: {
                        let name = concat!(stringify!($symbol), "\0").as_bytes();
                        let found = object.needed(CStr::from_bytes_with_nul(name).expect("it ends with its zero"))?;
                        // SAFETY: include/cindrolf.h declares it with this type.
                        unsafe { transmute::<*mut c_void, unsafe extern "C" fn($($given),*) -> $answer>(found) }
                    },)*
                })
            }
        }
    };
}

functions! {
    well_formed = cindrolf_well_formed(*const u64, usize, *const u64, usize) -> bool;
    write = cindrolf_write(*mut u64, usize, *mut u64, usize, u64, u64) -> u64;
    write_with = cindrolf_write_with(*mut u64, usize, *mut u64, usize, *const u64, usize, u64, u64) -> u64;
    write_scores = cindrolf_write_scores(*mut u64, usize, *mut u64, usize, u64, *const u16, usize) -> u64;
    close_own = cindrolf_close_own(*mut u64, usize, *mut u64, usize, u64) -> u64;
    read_chain = cindrolf_read_chain(*const u64, usize, *const u64, usize, *mut u64, usize) -> ChainCount;
    first_window = cindrolf_first_window(*const u64, usize, *const u64, usize, u64, u64) -> WindowFound;
    run_plan = cindrolf_run_plan(*mut u64, usize, *mut u64, usize, *const u64, usize, *const u64, usize, u64) -> u64;
    forecast = cindrolf_forecast(
        *const u64, usize, *const u64, usize, *const u64, usize, *const u64, usize, u64
    ) -> PlanCounts;
    rearrange = cindrolf_rearrange(*const u64, usize, *mut u8, usize) -> u64;
    restore = cindrolf_restore(*const u8, usize, *mut u64, usize) -> u64;
}

/// The library at one placement.
pub struct Placed {
    functions: Functions,
}

// SAFETY, for every call below: the slices give pointers that are aligned and valid for their lengths, those that the library
// changes are exclusive, and it keeps none of them.
impl Placed {
    /// Loads it.
    pub fn load(path: &Path) -> Result<Self, String> {
        Ok(Placed { functions: Functions::of(&Object::open(path)?)? })
    }

    /// Where its check is.
    pub fn address(&self) -> usize {
        self.functions.well_formed as usize
    }

    /// The check of both buffers.
    pub fn well_formed(&self, state: &[u64], entries: &[u64]) -> bool {
        unsafe { (self.functions.well_formed)(state.as_ptr(), state.len(), entries.as_ptr(), entries.len()) }
    }

    /// A write by client 0.
    pub fn write(&self, state: &mut [u64], entries: &mut [u64], value: u64) -> u64 {
        let (words, room) = (state.len(), entries.len());
        unsafe { (self.functions.write)(state.as_mut_ptr(), words, entries.as_mut_ptr(), room, 0, value) }
    }

    /// A write by client 0 under rights.
    pub fn write_with(&self, state: &mut [u64], entries: &mut [u64], rights: &[u64], value: u64) -> u64 {
        let (words, room, write) = (state.len(), entries.len(), self.functions.write_with);
        unsafe { write(state.as_mut_ptr(), words, entries.as_mut_ptr(), room, rights.as_ptr(), rights.len(), 0, value) }
    }

    /// A write of scores by client 0.
    pub fn write_scores(&self, state: &mut [u64], entries: &mut [u64], scores: &[u16]) -> u64 {
        let (words, room, write) = (state.len(), entries.len(), self.functions.write_scores);
        unsafe { write(state.as_mut_ptr(), words, entries.as_mut_ptr(), room, 0, scores.as_ptr(), scores.len()) }
    }

    /// Client 0 closes its own ledger.
    pub fn close_own(&self, state: &mut [u64], entries: &mut [u64]) -> u64 {
        unsafe { (self.functions.close_own)(state.as_mut_ptr(), state.len(), entries.as_mut_ptr(), entries.len(), 0) }
    }

    /// The reading of the chain: how many words it has.
    pub fn read_chain(&self, state: &[u64], entries: &[u64], output: &mut [u64]) -> u64 {
        let (words, room, read) = (state.len(), entries.len(), self.functions.read_chain);
        unsafe { read(state.as_ptr(), words, entries.as_ptr(), room, output.as_mut_ptr(), output.len()).count }
    }

    /// The search for a window: whether there is one.
    pub fn first_window(&self, state: &[u64], entries: &[u64], length: u64, limit: u64) -> u64 {
        let (words, room, search) = (state.len(), entries.len(), self.functions.first_window);
        unsafe { search(state.as_ptr(), words, entries.as_ptr(), room, length, limit).found }
    }

    /// A run of a plan with any budget: how many steps were taken or refused.
    pub fn run_plan(&self, state: &mut [u64], entries: &mut [u64], rights: &[u64], plan: &[u64]) -> u64 {
        let (words, room, run) = (state.len(), entries.len(), self.functions.run_plan);
        let (rights, count) = (rights.as_ptr(), rights.len());
        unsafe {
            run(
                state.as_mut_ptr(),
                words,
                entries.as_mut_ptr(),
                room,
                rights,
                count,
                plan.as_ptr(),
                plan.len(),
                u64::MAX,
            )
        }
    }

    /// The forecast of a plan: how many entries it adds.
    pub fn forecast(&self, state: &[u64], entries: &[u64], rights: &[u64], plan: &[u64]) -> u64 {
        let (words, room, forecast) = (state.len(), entries.len(), self.functions.forecast);
        let (rights, count) = (rights.as_ptr(), rights.len());
        unsafe {
            forecast(state.as_ptr(), words, entries.as_ptr(), room, rights, count, plan.as_ptr(), plan.len(), u64::MAX)
        }
        .entries
    }

    /// Words rearranged as bytes.
    pub fn rearrange(&self, words: &[u64], bytes: &mut [u8]) -> u64 {
        unsafe { (self.functions.rearrange)(words.as_ptr(), words.len(), bytes.as_mut_ptr(), bytes.len()) }
    }

    /// Bytes restored to words.
    pub fn restore(&self, bytes: &[u8], words: &mut [u64]) -> u64 {
        unsafe { (self.functions.restore)(bytes.as_ptr(), bytes.len(), words.as_mut_ptr(), words.len()) }
    }
}
