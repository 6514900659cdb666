//! The static library's functions, and the safe calls of them. This is the one place of the crate that is not safe by itself.
//!
//! What makes the calls safe: a Rust slice is a pointer and a length that belong together, never null and aligned; `&mut` slices
//! overlap nothing; and the functions ask for nothing else. The structs are laid out as crates/exports has them, which is C's way.

/// What reading answers. `number` is 0 where the script was accepted.
#[repr(C)]
#[derive(Clone, Copy, Debug, PartialEq, Eq)]
pub struct Answer {
    pub number: u32,
    pub reason: u32,
    pub place: usize,
    pub tokens: usize,
    pub steps: usize,
    pub nodes: usize,
    pub keys: usize,
}

/// What lexing answers.
#[repr(C)]
#[derive(Clone, Copy, Debug, PartialEq, Eq)]
pub struct Lexed {
    pub number: u32,
    pub place: usize,
    pub tokens: usize,
}

/// The sizes that are ample for a script, in entries.
#[repr(C)]
#[derive(Clone, Copy, Debug, PartialEq, Eq)]
pub struct Room {
    pub number: u32,
    pub place: usize,
    pub tokens: usize,
    pub nodes: usize,
    pub keys: usize,
    pub work: usize,
}

/// What encoding answers. `number` is 0 where the script was written, `place` is always 0.
#[repr(C)]
#[derive(Clone, Copy, Debug, PartialEq, Eq)]
pub struct Encoded {
    pub number: u32,
    pub reason: u32,
    pub place: usize,
    pub bytes: usize,
}

/// Where a leaf's key or hash lies in a script; both numbers are 0 where there is none.
#[repr(C)]
#[derive(Clone, Copy, Debug, PartialEq, Eq)]
pub struct Part {
    pub start: usize,
    pub bytes: usize,
}

extern "C" {
    fn phagdrulis_read(
        kind: u32,
        script: *const u8,
        script_length: usize,
        tokens: *mut u32,
        tokens_length: usize,
        nodes: *mut u32,
        nodes_length: usize,
        keys: *mut u32,
        keys_length: usize,
        work: *mut u64,
        work_length: usize,
    ) -> Answer;
    fn phagdrulis_lex(script: *const u8, script_length: usize, tokens: *mut u32, tokens_length: usize) -> Lexed;
    fn phagdrulis_room(script: *const u8, script_length: usize) -> Room;
    fn phagdrulis_encode(
        kind: u32,
        nodes: *const u32,
        nodes_length: usize,
        keys: *const u32,
        keys_length: usize,
        material: *const u8,
        material_length: usize,
        work: *mut u64,
        work_length: usize,
        out: *mut u8,
        out_length: usize,
    ) -> Encoded;
    fn phagdrulis_leaf_part(kind: u32, script: *const u8, script_length: usize, node: u32, place: u32) -> Part;
}

/// `phagdrulis_read`, by the numbers: any kind, any tables.
#[inline]
pub fn read(kind: u32, script: &[u8], tokens: &mut [u32], nodes: &mut [u32], keys: &mut [u32], work: &mut [u64]) -> Answer {
    // SAFETY: see the module's text.
    unsafe {
        phagdrulis_read(
            kind,
            script.as_ptr(),
            script.len(),
            tokens.as_mut_ptr(),
            tokens.len(),
            nodes.as_mut_ptr(),
            nodes.len(),
            keys.as_mut_ptr(),
            keys.len(),
            work.as_mut_ptr(),
            work.len(),
        )
    }
}

/// `phagdrulis_lex`.
#[inline]
pub fn lex(script: &[u8], tokens: &mut [u32]) -> Lexed {
    // SAFETY: see the module's text.
    unsafe { phagdrulis_lex(script.as_ptr(), script.len(), tokens.as_mut_ptr(), tokens.len()) }
}

/// `phagdrulis_room`.
#[inline]
pub fn room(script: &[u8]) -> Room {
    // SAFETY: see the module's text.
    unsafe { phagdrulis_room(script.as_ptr(), script.len()) }
}

/// `phagdrulis_encode`, by the numbers: any kind, any tables.
#[inline]
pub fn encode(kind: u32, nodes: &[u32], keys: &[u32], material: &[u8], work: &mut [u64], out: &mut [u8]) -> Encoded {
    // SAFETY: see the module's text.
    unsafe {
        phagdrulis_encode(
            kind,
            nodes.as_ptr(),
            nodes.len(),
            keys.as_ptr(),
            keys.len(),
            material.as_ptr(),
            material.len(),
            work.as_mut_ptr(),
            work.len(),
            out.as_mut_ptr(),
            out.len(),
        )
    }
}

/// `phagdrulis_leaf_part`: any kinds, any place.
#[inline]
pub fn leaf_part(kind: u32, script: &[u8], node: u32, place: u32) -> Part {
    // SAFETY: see the module's text.
    unsafe { phagdrulis_leaf_part(kind, script.as_ptr(), script.len(), node, place) }
}
