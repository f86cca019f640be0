//! The declarations of `bindings/c/rachonpas.h`, and safe calls of them.
use crate::Error;

/// As `plir_place`.
#[repr(C)]
#[derive(Clone, Copy, Default, PartialEq, Eq)]
pub struct PlirPlace {
    pub start: usize,
    pub length: usize,
    pub line: usize,
    pub column: usize,
}

extern "C" {
    fn plir_version() -> u32;
    fn plir_optimise(
        pipeline: *const u8,
        pipeline_length: usize,
        text: *const u8,
        text_length: usize,
        output: *mut u8,
        output_capacity: usize,
        needed: *mut usize,
    ) -> u32;
    fn plir_graph(
        text: *const u8,
        text_length: usize,
        output: *mut u8,
        output_capacity: usize,
        needed: *mut usize,
    ) -> u32;
    fn plir_find_fault(
        text: *const u8,
        text_length: usize,
        output: *mut u8,
        output_capacity: usize,
        needed: *mut usize,
        place: *mut PlirPlace,
    ) -> u32;
    fn plir_optimise_mlir(
        pipeline: *const u8,
        pipeline_length: usize,
        text: *const u8,
        text_length: usize,
        output: *mut u8,
        output_capacity: usize,
        needed: *mut usize,
        changed: *mut u32,
    ) -> u32;
    fn plir_find_fault_mlir(
        text: *const u8,
        text_length: usize,
        output: *mut u8,
        output_capacity: usize,
        needed: *mut usize,
        place: *mut PlirPlace,
    ) -> u32;
}

/// The interface of these declarations.
const VERSION: u32 = 2;

/// The answer of a call, for which a buffer is made, and a larger one where the answer doesn't fit. `call` is given the
/// buffer and where the answer's length goes, and answers a status.
fn fill(
    first: usize,
    mut call: impl FnMut(&mut [u8], &mut usize) -> u32,
) -> Result<Vec<u8>, Error> {
    // SAFETY: it takes nothing, and asks for nothing.
    if unsafe { plir_version() } != VERSION {
        return Err(Error::Interface);
    }
    let mut buffer = Vec::new();
    let mut length = first;
    loop {
        if buffer.try_reserve_exact(length).is_err() {
            return Err(Error::Memory);
        }
        buffer.resize(length, 0);
        match call(&mut buffer, &mut length) {
            0 => break,
            1 => return Err(Error::Refused),
            2 => return Err(Error::Text(None)),
            3 => return Err(Error::Pipeline),
            // `length` is now larger than the buffer.
            4 => {}
            _ => return Err(Error::Memory),
        }
    }
    buffer.truncate(length);
    Ok(buffer)
}

/// The answer as text.
fn text_of(answer: Vec<u8>) -> Result<String, Error> {
    String::from_utf8(answer).map_err(|_| Error::NotUtf8)
}

/// As much as most answers need. Where one is longer, the call is made again.
fn first_room(text: &[u8]) -> usize {
    2 * text.len() + 64
}

pub fn optimise(pipeline: &[u8], text: &[u8]) -> Result<String, Error> {
    let answer = fill(first_room(text), |output, needed| {
        // SAFETY: the declaration fits the header. The pointers and lengths are those of slices, which are never null and
        // are borrowed for the call; `output` and `needed` are borrowed alone, so nothing overlaps them.
        unsafe {
            plir_optimise(
                pipeline.as_ptr(),
                pipeline.len(),
                text.as_ptr(),
                text.len(),
                output.as_mut_ptr(),
                output.len(),
                needed,
            )
        }
    })?;
    text_of(answer)
}

pub fn graph(text: &[u8]) -> Result<String, Error> {
    let answer = fill(8 * text.len() + 256, |output, needed| {
        // SAFETY: as in `optimise`.
        unsafe {
            plir_graph(
                text.as_ptr(),
                text.len(),
                output.as_mut_ptr(),
                output.len(),
                needed,
            )
        }
    })?;
    text_of(answer)
}

pub fn find_fault(text: &[u8], place: &mut PlirPlace) -> Result<String, Error> {
    let answer = fill(128, |output, needed| {
        // SAFETY: as in `optimise`; `place` is borrowed alone too.
        unsafe {
            plir_find_fault(
                text.as_ptr(),
                text.len(),
                output.as_mut_ptr(),
                output.len(),
                needed,
                place,
            )
        }
    })?;
    text_of(answer)
}

/// The module, and whether it changed.
pub fn optimise_mlir(pipeline: &[u8], text: &[u8]) -> Result<(Vec<u8>, bool), Error> {
    let mut changed = 0;
    let module = fill(first_room(text), |output, needed| {
        // SAFETY: as in `optimise`; `changed` is borrowed alone too.
        unsafe {
            plir_optimise_mlir(
                pipeline.as_ptr(),
                pipeline.len(),
                text.as_ptr(),
                text.len(),
                output.as_mut_ptr(),
                output.len(),
                needed,
                &mut changed,
            )
        }
    })?;
    Ok((module, changed == 1))
}

pub fn find_fault_mlir(text: &[u8], place: &mut PlirPlace) -> Result<String, Error> {
    let answer = fill(128, |output, needed| {
        // SAFETY: as in `find_fault`.
        unsafe {
            plir_find_fault_mlir(
                text.as_ptr(),
                text.len(),
                output.as_mut_ptr(),
                output.len(),
                needed,
                place,
            )
        }
    })?;
    text_of(answer)
}
