//! Stack and workspace of a call, measured by probe.c.

use std::ffi::c_void;

extern "C" {
    fn stack_used(function: extern "C" fn(*mut c_void), with: *mut c_void) -> usize;
    fn watch(places: *const u16, length: usize, filled_with: u16, marks: *mut u8);
    fn unwatch();
}

type Call<'a> = &'a mut dyn FnMut();

extern "C" fn made(call: *mut c_void) {
    // SAFETY: `touched` below passes a pointer to its own call.
    unsafe { (*call.cast::<Call>())() }
}

fn touched(mut call: Call) -> usize {
    // SAFETY: the thread that makes the call has ended when this returns.
    unsafe { stack_used(made, (&raw mut call).cast()) }
}

/// Bytes of stack that a call touches, without the thread's own share.
pub fn stack(call: Call) -> usize {
    touched(call).saturating_sub(touched(&mut || {}))
}

/// The places of a workspace that are seen in use while `run` has it: how many,
/// and the highest. `run` must fill it with `rubbish` before each call.
pub fn places_in_use(
    work: &mut [u16],
    rubbish: u16,
    run: impl FnOnce(&mut [u16]),
) -> (usize, usize) {
    let mut marks = vec![0; work.len()];
    // SAFETY: places and marks outlive the watch.
    unsafe { watch(work.as_ptr(), work.len(), rubbish, marks.as_mut_ptr()) };
    run(work);
    unsafe { unwatch() };
    let in_use = marks.iter().filter(|&&mark| mark != 0).count();
    let highest = marks.iter().rposition(|&mark| mark != 0);
    (in_use, highest.map_or(0, |place| place + 1))
}
