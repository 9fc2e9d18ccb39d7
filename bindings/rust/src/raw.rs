//! The calls of `include/fmem.h`, and safe ones over slices. This module alone is unsafe.

use crate::Error;

pub const MEMORY: u64 = 99;

#[repr(C)]
#[derive(Default)]
pub struct Report {
    pub number: u64,
    pub arguments: u64,
    pub first: u64,
    pub second: u64,
    pub length: u64,
}

#[repr(C)]
#[derive(Default)]
pub struct Extent {
    pub size: u64,
    pub alignment: u64,
}

#[repr(C)]
#[derive(Clone, Debug, Default, PartialEq, Eq, Hash)]
pub struct Place {
    pub offset: u64,
    pub kind: u64,
    pub order: u64,
    pub alignment: u64,
    pub root_size: u64,
    pub root_alignment: u64,
}

/// What the index of an open step does to the offset: so many bytes from one to the next, and so many indices from 0 on.
#[repr(C)]
#[derive(Clone, Copy, Debug, Default, PartialEq, Eq, Hash)]
pub struct Stride {
    pub stride: i64,
    pub bound: u64,
}

#[repr(C)]
pub struct Within {
    pub size: u64,
    pub base: u64,
}

/// A query that the library keeps; what it leads to is the library's alone.
#[repr(C)]
pub struct Handle {
    query: *mut u8,
}

// SAFETY: what it keeps is plain data of the library's, which may go from one thread to another (`include/fmem.h`).
unsafe impl Send for Handle {}

impl Handle {
    pub fn make(layout: &[u8], query: &[u8]) -> Result<Handle, Error> {
        let (mut report, mut handle) = (
            Report::default(),
            Handle {
                query: std::ptr::null_mut(),
            },
        );
        // SAFETY: the pointers are of slices and `&mut`s that are borrowed for the call, and never null. The handle is empty.
        unsafe {
            fm_query_make(
                layout.as_ptr(),
                layout.len(),
                query.as_ptr(),
                query.len(),
                &mut handle,
                &mut report,
            )
        };
        match told(&report) {
            Ok(_) => Ok(handle),
            Err(error) => {
                std::mem::forget(handle);
                Err(error)
            }
        }
    }

    pub fn ask(&mut self, records: &[u8], out: &mut [u8]) -> Result<usize, Error> {
        let mut report = Report::default();
        // SAFETY: as above; the handle was made, is freed by its drop alone, and is borrowed by this call alone.
        unsafe {
            fm_query_ask(
                self,
                records.as_ptr(),
                records.len(),
                out.as_mut_ptr(),
                out.len(),
                &mut report,
            )
        };
        told(&report)
    }
}

impl Drop for Handle {
    fn drop(&mut self) {
        // SAFETY: the handle was made, and nothing uses it after this.
        unsafe { fm_query_free(self) };
    }
}

#[repr(C)]
#[derive(Clone, Default)]
pub struct Counted {
    pub number: i64,
    pub count: u64,
}

unsafe extern "C" {
    fn fm_layout(
        layout: *const u8,
        layout_length: usize,
        extent: *mut Extent,
        report: *mut Report,
    ) -> u64;
    fn fm_places(
        layout: *const u8,
        layout_length: usize,
        out: *mut u8,
        room: usize,
        report: *mut Report,
    ) -> u64;
    fn fm_place(
        layout: *const u8,
        layout_length: usize,
        path: *const u8,
        path_length: usize,
        place: *mut Place,
        strides: *mut Stride,
        room: usize,
        report: *mut Report,
    ) -> u64;
    fn fm_at(
        place: *const Place,
        strides: *const Stride,
        strides_count: usize,
        indices: *const u64,
        indices_count: usize,
        within: *const Within,
        at: *mut u64,
        report: *mut Report,
    ) -> u64;
    fn fm_numbers(
        layout: *const u8,
        layout_length: usize,
        query: *const u8,
        query_length: usize,
        records: *const u8,
        records_length: usize,
        out: *mut i64,
        room: usize,
        report: *mut Report,
    ) -> u64;
    fn fm_groups(
        layout: *const u8,
        layout_length: usize,
        path: *const u8,
        path_length: usize,
        records: *const u8,
        records_length: usize,
        out: *mut Counted,
        room: usize,
        report: *mut Report,
    ) -> u64;
    fn fm_query_make(
        layout: *const u8,
        layout_length: usize,
        query: *const u8,
        query_length: usize,
        handle: *mut Handle,
        report: *mut Report,
    ) -> u64;
    fn fm_query_ask(
        handle: *mut Handle,
        records: *const u8,
        records_length: usize,
        out: *mut u8,
        room: usize,
        report: *mut Report,
    ) -> u64;
    fn fm_query_free(handle: *mut Handle) -> u64;
    fn fm_texts(
        layout: *const u8,
        layout_length: usize,
        path: *const u8,
        path_length: usize,
        records: *const u8,
        records_length: usize,
        out: *mut u8,
        room: usize,
        report: *mut Report,
    ) -> u64;
    fn fm_query(
        layout: *const u8,
        layout_length: usize,
        query: *const u8,
        query_length: usize,
        records: *const u8,
        records_length: usize,
        out: *mut u8,
        room: usize,
        report: *mut Report,
    ) -> u64;
}

/// How long the whole output is, or why there is none.
fn told(report: &Report) -> Result<usize, Error> {
    if report.number == 0 {
        Ok(report.length as usize)
    } else {
        Err(Error::of(report))
    }
}

pub fn layout(layout: &[u8], extent: &mut Extent) -> Result<usize, Error> {
    let mut report = Report::default();
    // SAFETY: the pointers are of slices and `&mut`s that are borrowed for the call, and never null.
    unsafe { fm_layout(layout.as_ptr(), layout.len(), extent, &mut report) };
    told(&report)
}

pub fn places(layout: &[u8], out: &mut [u8]) -> Result<usize, Error> {
    let mut report = Report::default();
    // SAFETY: as above; the output is borrowed alone.
    unsafe {
        fm_places(
            layout.as_ptr(),
            layout.len(),
            out.as_mut_ptr(),
            out.len(),
            &mut report,
        )
    };
    told(&report)
}

pub fn place(
    layout: &[u8],
    path: &[u8],
    place: &mut Place,
    strides: &mut [Stride],
) -> Result<usize, Error> {
    let mut report = Report::default();
    let (out, room) = (strides.as_mut_ptr(), strides.len());
    // SAFETY: as above.
    unsafe {
        fm_place(
            layout.as_ptr(),
            layout.len(),
            path.as_ptr(),
            path.len(),
            place,
            out,
            room,
            &mut report,
        )
    };
    told(&report)
}

pub fn at(
    place: &Place,
    strides: &[Stride],
    indices: &[u64],
    within: &Within,
) -> Result<u64, Error> {
    let (mut report, mut at) = (Report::default(), 0);
    // SAFETY: as above.
    unsafe {
        fm_at(
            place,
            strides.as_ptr(),
            strides.len(),
            indices.as_ptr(),
            indices.len(),
            within,
            &mut at,
            &mut report,
        )
    };
    told(&report).map(|_| at)
}

/// A call that reads a layout, a text and records, and puts items.
type Over<T> = unsafe extern "C" fn(
    *const u8,
    usize,
    *const u8,
    usize,
    *const u8,
    usize,
    *mut T,
    usize,
    *mut Report,
) -> u64;

fn over<T>(call: Over<T>, given: [&[u8]; 3], out: &mut [T]) -> Result<usize, Error> {
    let mut report = Report::default();
    let [layout, text, records] = given;
    // SAFETY: as above; the call is one of those below, for which items of `T` are right.
    unsafe {
        call(
            layout.as_ptr(),
            layout.len(),
            text.as_ptr(),
            text.len(),
            records.as_ptr(),
            records.len(),
            out.as_mut_ptr(),
            out.len(),
            &mut report,
        )
    };
    told(&report)
}

pub fn query(given: [&[u8]; 3], out: &mut [u8]) -> Result<usize, Error> {
    over(fm_query, given, out)
}

pub fn numbers(given: [&[u8]; 3], out: &mut [i64]) -> Result<usize, Error> {
    over(fm_numbers, given, out)
}

pub fn groups(given: [&[u8]; 3], out: &mut [Counted]) -> Result<usize, Error> {
    over(fm_groups, given, out)
}

pub fn texts(given: [&[u8]; 3], out: &mut [u8]) -> Result<usize, Error> {
    over(fm_texts, given, out)
}

/// All that the call puts, of which most need no more room than this.
pub fn filled<T: Clone + Default>(
    room: usize,
    mut call: impl FnMut(&mut [T]) -> Result<usize, Error>,
) -> Result<Vec<T>, Error> {
    let mut out = vec![T::default(); room];
    loop {
        let length = call(&mut out)?;
        if length <= out.len() {
            out.truncate(length);
            return Ok(out);
        }
        out.resize(length, T::default());
    }
}

/// The texts of the library are those of a layout's names and of numbers, or of a query that was text.
pub fn text(bytes: Vec<u8>) -> Result<String, Error> {
    Ok(String::from_utf8(bytes).expect("the library puts text"))
}
