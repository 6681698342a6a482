//! The handles: numbers that are given once, and the store of each open one.

use crate::Status;
use crate::failure::Failure;
use std::collections::BTreeMap;
use std::ffi::c_int;
use std::panic::{AssertUnwindSafe, catch_unwind};
use std::sync::{Arc, Mutex, MutexGuard, PoisonError, TryLockError};
use store::Store;

/// What a handle seems to point to. Nothing is there.
#[repr(C)]
pub struct Opaque {
    _nothing: [u8; 0],
}

/// An open log, and why the last call on it was not done.
pub struct Handle {
    /// None once it is closed.
    store: Option<Store>,
    message: String,
    request: u64,
}

/// The open handles by their numbers, and the number that was given last.
struct Live {
    last: usize,
    handles: BTreeMap<usize, Arc<Mutex<Handle>>>,
}

static LIVE: Mutex<Live> = Mutex::new(Live { last: 0, handles: BTreeMap::new() });

/// Handles are this far apart, and none is aligned as memory is: one that is used as a pointer is found soon.
const STRIDE: usize = 16;
const ODD: usize = 7;

fn live() -> MutexGuard<'static, Live> {
    // Nothing panics while it is held.
    LIVE.lock().unwrap_or_else(PoisonError::into_inner)
}

/// Gives a store a handle.
pub fn add(store: Store) -> Result<*mut Opaque, Failure> {
    let handle = Handle { store: Some(store), message: String::new(), request: 0 };
    let mut live = live();
    live.last = live.last.checked_add(1).filter(|&last| last < usize::MAX / STRIDE).ok_or(Status::Internal)?;
    let number = live.last * STRIDE + ODD;
    live.handles.insert(number, Arc::new(Mutex::new(handle)));
    Ok(std::ptr::without_provenance_mut(number))
}

fn find(handle: *const Opaque) -> Result<Arc<Mutex<Handle>>, Failure> {
    live().handles.get(&handle.addr()).cloned().ok_or_else(|| Status::BadHandle.into())
}

/// Takes a handle for this call alone.
fn lock(handle: &Mutex<Handle>) -> Result<MutexGuard<'_, Handle>, Failure> {
    match handle.try_lock() {
        Ok(handle) if handle.store.is_none() => Err(Status::BadHandle.into()),
        Ok(handle) => Ok(handle),
        Err(TryLockError::WouldBlock) => Err(Status::InUse.into()),
        Err(TryLockError::Poisoned(_)) => Err(Status::Internal.into()),
    }
}

/// What a call does, whose panic is its status.
pub fn guarded(call: impl FnOnce() -> Result<(), Failure>) -> Result<(), Failure> {
    catch_unwind(AssertUnwindSafe(call)).unwrap_or_else(|_| Err(Status::Internal.into()))
}

fn number(result: Result<(), Failure>) -> c_int {
    result.map_or_else(|failure| failure.status, |()| Status::Ok).number()
}

/// A call without a handle, whose message goes to the caller's memory.
///
/// # Safety
///
/// The message is null or valid for as many bytes.
pub unsafe fn without(
    (message, length): (*mut std::ffi::c_char, usize),
    call: impl FnOnce() -> Result<(), Failure>,
) -> c_int {
    let result = guarded(call);
    let text = result.as_ref().err().map_or("", |failure| failure.message.as_str());
    // SAFETY: by the contract.
    unsafe { crate::memory::write_text(text, message, length) };
    number(result)
}

/// A call on the store of a handle, which keeps the message.
pub fn with(handle: *const Opaque, call: impl FnOnce(&mut Store) -> Result<(), Failure>) -> c_int {
    number(guarded(|| {
        let shared = find(handle)?;
        let mut handle = lock(&shared)?;
        let result = handle.store.as_mut().map_or_else(|| Err(Status::BadHandle.into()), call);
        (handle.message, handle.request) = match &result {
            Ok(()) => (String::new(), 0),
            Err(failure) => (failure.message.clone(), failure.request),
        };
        result
    }))
}

/// Looks at what the last call on a handle left.
pub fn look(handle: *const Opaque, call: impl FnOnce(&str, u64) -> Result<(), Failure>) -> Result<(), Failure> {
    guarded(|| {
        let shared = find(handle)?;
        let handle = lock(&shared)?;
        call(&handle.message, handle.request)
    })
}

/// Closes a handle, whose number nobody is given again.
pub fn close(handle: *const Opaque) -> Result<(), Failure> {
    let shared = find(handle)?;
    let locked = lock(&shared);
    if matches!(&locked, Err(failure) if failure.status != Status::Internal) {
        return locked.map(drop);
    }
    live().handles.remove(&handle.addr());
    // That of a call which panicked goes with the last who knows it.
    let store = locked.ok().and_then(|mut handle| handle.store.take());
    store.map_or(Ok(()), |store| Ok(store.close()?))
}

#[cfg(test)]
mod tests {
    use super::*;
    use cindrolf::Capacity;

    #[test]
    fn a_panic_stays_within() {
        let folder = std::env::temp_dir().join(format!("cindrolf-handles-{}", std::process::id()));
        std::fs::create_dir_all(&folder).unwrap();
        let store = Store::create(folder.join("run.db"), 2, Capacity::Small).unwrap();
        let handle = add(store).unwrap();
        let internal = Status::Internal.number();
        assert_eq!(with(handle, |store| Ok(store.become_leader(0)?)), Status::Ok.number());
        assert_eq!(with(handle, |_| panic!("as a mistake in the store would")), internal);
        // The store may be half changed, so that nothing is done with it any more.
        assert_eq!(with(handle, |_| Ok(())), internal);
        assert!(look(handle, |_, _| Ok(())).is_err_and(|failure| failure.status == Status::Internal));
        assert!(close(handle).is_ok());
        assert_eq!(with(handle, |_| Ok(())), Status::BadHandle.number());
        std::fs::remove_dir_all(&folder).unwrap();
    }
}
