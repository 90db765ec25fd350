//! A join that is previewed first. The preview is lent the project and the part where nothing can be written.

use cerealbank::{join, preview, Joined};
use std::alloc::{alloc, dealloc, handle_alloc_error, Layout};
use std::ffi::{c_int, c_void};
use std::ops::Deref;

/// A multiple of the machine's pages, whichever it has.
const PAGES: usize = 1 << 16;

const READ: c_int = 1;
const READ_AND_WRITE: c_int = 3;

extern "C" {
    fn mprotect(start: *mut c_void, length: usize, access: c_int) -> c_int;
}

/// Bytes that can be read only: a write ends the program, even a write of the byte that is there.
pub struct ReadOnly {
    start: *mut u8,
    length: usize,
    pages: Layout,
}

impl ReadOnly {
    pub fn of(bytes: &[u8]) -> ReadOnly {
        let size = bytes.len().max(1).next_multiple_of(PAGES);
        let pages = Layout::from_size_align(size, PAGES).expect("a layout");
        // SAFETY: the layout is not empty, and has room for the bytes.
        let start = unsafe { alloc(pages) };
        if start.is_null() {
            handle_alloc_error(pages);
        }
        unsafe { start.copy_from_nonoverlapping(bytes.as_ptr(), bytes.len()) };
        let bytes = ReadOnly { start, length: bytes.len(), pages };
        bytes.allow(READ);
        bytes
    }

    fn allow(&self, access: c_int) {
        // SAFETY: whole pages, with nothing else on them.
        let failed = unsafe { mprotect(self.start.cast(), self.pages.size(), access) };
        assert_eq!(failed, 0, "pages cannot be protected");
    }
}

impl Deref for ReadOnly {
    type Target = [u8];

    fn deref(&self) -> &[u8] {
        // SAFETY: so many bytes were written, and nobody can write them.
        unsafe { std::slice::from_raw_parts(self.start, self.length) }
    }
}

impl Drop for ReadOnly {
    fn drop(&mut self) {
        self.allow(READ_AND_WRITE);
        // SAFETY: allocated with this layout.
        unsafe { dealloc(self.start, self.pages) };
    }
}

/// What a work buffer may hold before a call.
fn fillings(length: usize) -> [Vec<u8>; 4] {
    let [zeros, ones, trailers] = [0, 0xFF, 0xF0].map(|byte| vec![byte; length]);
    [zeros, ones, trailers, (0..length).map(|at| (at * at / 8) as u8).collect()]
}

/// What a join says, the project's lent bytes after it, and the work buffer.
fn on_a_copy(project: &[u8], told: usize, part: &[u8], work: &[u8]) -> (Joined, Vec<u8>, Vec<u8>) {
    let (mut project, mut work) = (project.to_vec(), work.to_vec());
    (join(&mut project, told, part, &mut work), project, work)
}

/// Previews with whatever the work buffer may hold, and the project and the part where nothing can be written: as the join on a copy.
fn writes_the_work_buffer_alone(project: &[u8], told: usize, part: &[u8], length: usize) {
    let [project, part] = [project, part].map(ReadOnly::of);
    for mut work in fillings(length) {
        let (joined, _, left) = on_a_copy(&project, told, &part, &work);
        assert_eq!(preview(&project, told, &part, &mut work), joined, "a preview, and the join on a copy");
        assert!(work == left, "the work buffer of a preview: {joined:?}");
    }
}

/// Joins, once a preview of the same buffers has said what the join will say and has left what it will leave. It gives what a join gives.
pub fn join_as_previewed(project: &mut [u8], told: usize, part: &[u8], work: &mut [u8]) -> Joined {
    let before = project.to_vec();
    let (expected, joint, left) = on_a_copy(project, told, part, work);
    let previewed = preview(project, told, part, work);
    assert_eq!(previewed, expected, "a preview, and the join on a copy");
    assert!(project == before, "a preview has changed a lent byte: {previewed:?}");
    assert!(work == left, "the work buffer of a preview: {previewed:?}");
    writes_the_work_buffer_alone(project, told, part, work.len());
    assert_eq!(join(project, told, part, work), previewed, "a join, and the preview before it");
    assert!(project == joint && work == left, "what a join leaves after a preview: {previewed:?}");
    previewed
}
