//! The library's exported calls, declared once for all who link it: this crate
//! and `rust/compare`, which takes in this file. It is the only unsafe code of
//! either.
//!
//! A slice passes as a pointer and then a length. A test holds every
//! declaration against the Rattle source that exports it.

unsafe extern "C" {
    // The number of this set of calls, images and rules. Nothing else tells a
    // library of another set apart, so whoever makes a call needs this symbol
    // too.
    // It is raised here, in include/fitcheck.h for C, and in the Rattle sources,
    // crates/fitcheck_c/src/lib.rt and crates/fitcheck/src/lib.rt, at the same
    // time.
    #[link_name = "fit_interface_10"]
    fn fit_interface() -> u64;

    fn fit_list(
        reader: u32,
        catalogue: *const u8,
        catalogue_length: usize,
        fit: *const u8,
        fit_length: usize,
        profile: *const u8,
        profile_length: usize,
        allowance: u32,
        pairs: u32,
        skills: u32,
        out: *mut u8,
        out_length: usize,
    ) -> u64;

    fn fit_skill(
        reader: u32,
        catalogue: *const u8,
        catalogue_length: usize,
        fit: *const u8,
        fit_length: usize,
        result: u32,
        pairs: u32,
        skills: u32,
        out: *mut u8,
        out_length: usize,
    ) -> u64;

    fn fit_hall(
        catalogue: *const u8,
        catalogue_length: usize,
        input: *const u8,
        input_length: usize,
    ) -> u64;

    fn fit_widen(old: *const u8, old_length: usize, out: *mut u8, out_length: usize) -> u64;

    fn fit_train(
        catalogue: *const u8,
        catalogue_length: usize,
        fit: *const u8,
        fit_length: usize,
        result: u32,
        steps: u32,
        out: *mut u8,
        out_length: usize,
    ) -> u64;

    fn fit_trim(
        catalogue: *const u8,
        catalogue_length: usize,
        fit: *const u8,
        fit_length: usize,
        out: *mut u8,
        out_length: usize,
    ) -> u64;

    fn fit_cause(
        catalogue: *const u8,
        catalogue_length: usize,
        fit: *const u8,
        fit_length: usize,
        position: u32,
        out: *mut u8,
        out_length: usize,
    ) -> u64;

    fn fit_leave_out(
        catalogue: *const u8,
        catalogue_length: usize,
        fit: *const u8,
        fit_length: usize,
        budget: u32,
        out: *mut u8,
        out_length: usize,
    ) -> u64;
}

/// The number of the interface, as the linked library says it.
pub fn interface() -> u64 {
    // SAFETY: it takes nothing and reads no memory.
    unsafe { fit_interface() }
}

/// Has the linker want the number's symbol, so that a library of another
/// interface is refused there and never called. Nothing is run.
#[inline(always)]
fn linked() {
    std::hint::black_box(fit_interface as *const ());
}

/// The page that a list or skill call is made for: who reads it, and how much it
/// takes. Any three numbers are one: the library refuses a reader that there is
/// not, and makes the main page's limits of higher ones.
#[derive(Clone, Copy)]
pub struct Page {
    pub reader: u32,
    pub pairs: u32,
    pub skills: u32,
}

/// The list call; returns its word.
pub fn list(
    page: Page,
    catalogue: &[u8],
    fit: &[u8],
    profile: &[u8],
    allowance: u32,
    out: &mut [u8],
) -> u64 {
    linked();
    // SAFETY: each pointer comes from a slice and passes with that slice's
    // length, so all bytes that the library may read are initialised and live
    // for the call. `out` is borrowed mutably, so it overlaps no image
    // and nobody else sees it. The library reads and writes within these
    // lengths whatever the bytes are (that is proved), keeps no pointer and
    // has no state, so any thread may call it at any time. The pointer of an
    // empty slice is not null and nothing is read through it.
    unsafe {
        fit_list(
            page.reader,
            catalogue.as_ptr(),
            catalogue.len(),
            fit.as_ptr(),
            fit.len(),
            profile.as_ptr(),
            profile.len(),
            allowance,
            page.pairs,
            page.skills,
            out.as_mut_ptr(),
            out.len(),
        )
    }
}

/// The skill call; returns its word.
pub fn skill(page: Page, catalogue: &[u8], fit: &[u8], result: u32, out: &mut [u8]) -> u64 {
    linked();
    // SAFETY: as in `list`; `result` may be any number.
    unsafe {
        fit_skill(
            page.reader,
            catalogue.as_ptr(),
            catalogue.len(),
            fit.as_ptr(),
            fit.len(),
            result,
            page.pairs,
            page.skills,
            out.as_mut_ptr(),
            out.len(),
        )
    }
}

/// The hall call; returns its word.
pub fn hall(catalogue: &[u8], input: &[u8]) -> u64 {
    linked();
    // SAFETY: as in `list`; the library writes nothing here.
    unsafe {
        fit_hall(
            catalogue.as_ptr(),
            catalogue.len(),
            input.as_ptr(),
            input.len(),
        )
    }
}

/// The widening of an old catalogue; returns its word.
pub fn widen(old: &[u8], out: &mut [u8]) -> u64 {
    linked();
    // SAFETY: as in `list`.
    unsafe { fit_widen(old.as_ptr(), old.len(), out.as_mut_ptr(), out.len()) }
}

/// The training of a fit for one result; returns its word.
pub fn train(catalogue: &[u8], fit: &[u8], result: u32, steps: u32, out: &mut [u8]) -> u64 {
    linked();
    // SAFETY: as in `list`; `result` and `steps` may be any numbers.
    unsafe {
        fit_train(
            catalogue.as_ptr(),
            catalogue.len(),
            fit.as_ptr(),
            fit.len(),
            result,
            steps,
            out.as_mut_ptr(),
            out.len(),
        )
    }
}

/// The trim of a catalogue to what a fit touches; returns its word.
pub fn trim(catalogue: &[u8], fit: &[u8], out: &mut [u8]) -> u64 {
    linked();
    // SAFETY: as in `list`.
    unsafe {
        fit_trim(
            catalogue.as_ptr(),
            catalogue.len(),
            fit.as_ptr(),
            fit.len(),
            out.as_mut_ptr(),
            out.len(),
        )
    }
}

/// The pairs that make the entry at a position; returns the call's word.
pub fn cause(catalogue: &[u8], fit: &[u8], position: u32, out: &mut [u8]) -> u64 {
    linked();
    // SAFETY: as in `list`; `position` may be any number.
    unsafe {
        fit_cause(
            catalogue.as_ptr(),
            catalogue.len(),
            fit.as_ptr(),
            fit.len(),
            position,
            out.as_mut_ptr(),
            out.len(),
        )
    }
}

/// The pairs to take off, found within a budget of tries; returns the call's word.
pub fn leave_out(catalogue: &[u8], fit: &[u8], budget: u32, out: &mut [u8]) -> u64 {
    linked();
    // SAFETY: as in `list`; `budget` may be any number.
    unsafe {
        fit_leave_out(
            catalogue.as_ptr(),
            catalogue.len(),
            fit.as_ptr(),
            fit.len(),
            budget,
            out.as_mut_ptr(),
            out.len(),
        )
    }
}
