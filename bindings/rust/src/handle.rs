//! The calls of the library. Only this module is unsafe.
//!
//! A [`Handle`] is made by `new`, never copied, and freed once. It isn't `Sync`, and no call of the library calls Rust,
//! so each call has the handle to itself. A call that gets a `*const` writes nothing to the handle: it is proved that the
//! handle is the same when the call returns, and bindings/c/tests/read_only.c tests that nothing is written in between.
//! Slices and texts are valid for each call that they are passed to. They aren't null, and they overlap with nothing that
//! is written.
#![allow(unsafe_code)]

use crate::error::Error;
#[cfg(test)]
use crate::raw::KindClasses;
use crate::raw::{
    self, ByteRange, Change, Diagnostic, DiagnosticSizes, Edited, Length, LineColumn, NodeInfo, Place, ViewAnswer,
    Window,
};
use std::ops::Range;
use std::ptr;

/// The status of a call whose buffer is too short. The call has written the length that it needs.
const SHORT_BUFFER: u32 = 17;

/// A session of the library.
pub(crate) struct Handle(raw::Session);

// SAFETY: a session is used by one thread at a time, since each call borrows the handle and a handle isn't `Sync`. What it
// points to belongs to it alone: sessions share nothing, and the library has no variables of its own. (bench/gate/door.py looks
// at the archive.) Its memory comes from `malloc`, which serves each thread.
unsafe impl Send for Handle {}

/// A status as a result.
fn outcome(status: u32) -> Result<(), Error> {
    match (status, Error::of(status)) {
        (0, _) => Ok(()),
        (_, Some(error)) => Err(error),
        (_, None) => unreachable!("the library answers status {status} to a call that this crate makes"),
    }
}

/// Whether the buffers of a call were long enough.
fn is_filled(status: u32) -> Result<bool, Error> {
    match status {
        SHORT_BUFFER => Ok(false),
        _ => outcome(status).map(|()| true),
    }
}

/// The elements that a call writes to a buffer, which is made longer if there are more than `many`.
fn filled<T: Clone + Default>(
    many: usize,
    mut call: impl FnMut(&mut [T], &mut Length) -> u32,
) -> Result<Vec<T>, Error> {
    let (mut out, mut length) = (vec![T::default(); many], Length::default());
    while !is_filled(call(&mut out, &mut length))? {
        out.resize(length.len, T::default());
    }
    out.truncate(length.len);
    Ok(out)
}

impl Handle {
    pub(crate) fn new() -> Result<Handle, Error> {
        let mut session = raw::Session {
            made: 0,
            at: ptr::null_mut(),
        };
        // SAFETY: the session is all zero.
        outcome(unsafe { raw::typst_new(&mut session) })?;
        Ok(Handle(session))
    }

    /// A copy of all that is held, with all numbers.
    pub(crate) fn copy(&self) -> Result<Handle, Error> {
        let mut session = raw::Session {
            made: 0,
            at: ptr::null_mut(),
        };
        // SAFETY: what the head of this module says. The new session is all zero, and another one than this.
        outcome(unsafe { raw::typst_copy(self.read(), &mut session) })?;
        Ok(Handle(session))
    }

    fn at(&mut self) -> *mut raw::Session {
        &mut self.0
    }

    fn read(&self) -> *const raw::Session {
        &self.0
    }

    pub(crate) fn push_leaf(&mut self, kind: u8, text: &str) -> Result<(), Error> {
        // SAFETY: what the head of this module says.
        outcome(unsafe { raw::typst_push_leaf(self.at(), kind.into(), text.as_ptr(), text.len()) })
    }

    pub(crate) fn push_error(&mut self, message: &str, text: &str) -> Result<(), Error> {
        // SAFETY: what the head of this module says.
        outcome(unsafe { raw::typst_push_error(self.at(), message.as_ptr(), message.len(), text.as_ptr(), text.len()) })
    }

    pub(crate) fn wrap(&mut self, kind: u8, count: usize) -> Result<(), Error> {
        // SAFETY: what the head of this module says.
        outcome(unsafe { raw::typst_wrap(self.at(), kind.into(), count) })
    }

    pub(crate) fn push_copy(&mut self, path: &[usize]) -> Result<(), Error> {
        // SAFETY: what the head of this module says.
        outcome(unsafe { raw::typst_push_copy(self.at(), path.as_ptr(), path.len()) })
    }

    pub(crate) fn warn(&mut self, message: &str) -> Result<(), Error> {
        // SAFETY: what the head of this module says.
        outcome(unsafe { raw::typst_warn(self.at(), message.as_ptr(), message.len()) })
    }

    pub(crate) fn hint(&mut self, text: &str) -> Result<(), Error> {
        // SAFETY: what the head of this module says.
        outcome(unsafe { raw::typst_hint(self.at(), text.as_ptr(), text.len()) })
    }

    pub(crate) fn pop(&mut self, count: usize) -> Result<(), Error> {
        // SAFETY: what the head of this module says.
        outcome(unsafe { raw::typst_pop(self.at(), count) })
    }

    pub(crate) fn number(&mut self, file: u16, within: Range<u64>) -> Result<(), Error> {
        // SAFETY: what the head of this module says.
        outcome(unsafe { raw::typst_number(self.at(), file, within.start, within.end) })
    }

    pub(crate) fn renumber(&mut self, file: u16, within: Range<u64>) -> Result<(), Error> {
        // SAFETY: what the head of this module says.
        outcome(unsafe { raw::typst_renumber(self.at(), file, within.start, within.end) })
    }

    pub(crate) fn take_tree(&mut self) -> Result<(), Error> {
        // SAFETY: what the head of this module says.
        outcome(unsafe { raw::typst_take_tree(self.at()) })
    }

    pub(crate) fn replace(&mut self, path: &[usize], range: Range<usize>, count: usize) -> Result<Window, Error> {
        let mut window = Window::default();
        let (from, to) = (range.start, range.end);
        // SAFETY: what the head of this module says.
        outcome(unsafe { raw::typst_replace(self.at(), path.as_ptr(), path.len(), from, to, count, &mut window) })?;
        Ok(window)
    }

    pub(crate) fn reconcile(&mut self, path: &[usize], range: Range<usize>, count: usize) -> Result<Change, Error> {
        let mut change = Change::default();
        let (from, to) = (range.start, range.end);
        // SAFETY: what the head of this module says.
        outcome(unsafe { raw::typst_reconcile(self.at(), path.as_ptr(), path.len(), from, to, count, &mut change) })?;
        Ok(change)
    }

    pub(crate) fn update(&mut self) -> Result<Change, Error> {
        let mut change = Change::default();
        // SAFETY: what the head of this module says.
        outcome(unsafe { raw::typst_update(self.at(), &mut change) })?;
        Ok(change)
    }

    /// Moves the last node of the stack to another stack.
    pub(crate) fn send(&mut self, other: &mut Handle) -> Result<(), Error> {
        // SAFETY: what the head of this module says.
        outcome(unsafe { raw::typst_send(self.at(), other.at()) })
    }

    /// The path to the node whose children the last edit changed. `depth` is its length.
    pub(crate) fn edited_path(&self, depth: usize) -> Result<Vec<usize>, Error> {
        filled(depth, |out: &mut [usize], length| {
            // SAFETY: what the head of this module says.
            unsafe { raw::typst_edited_path(self.read(), out.as_mut_ptr(), out.len(), length) }
        })
    }

    /// The number that a node has after the last edit, which can be followed. `None` if the node is gone.
    pub(crate) fn follow(&self, number: u64) -> Option<u64> {
        let mut now = 0;
        // SAFETY: what the head of this module says.
        match outcome(unsafe { raw::typst_follow(self.read(), number, &mut now) }) {
            Ok(()) => Some(now),
            Err(_) => None,
        }
    }

    pub(crate) fn node(&self, path: &[usize]) -> Result<NodeInfo, Error> {
        let mut info = NodeInfo::default();
        // SAFETY: what the head of this module says.
        outcome(unsafe { raw::typst_node(self.read(), path.as_ptr(), path.len(), &mut info) })?;
        Ok(info)
    }

    /// What is read of each child. There are `many` children.
    pub(crate) fn children(&self, path: &[usize], many: usize) -> Result<Vec<NodeInfo>, Error> {
        filled(many, |out: &mut [NodeInfo], length| {
            let (path, depth) = (path.as_ptr(), path.len());
            // SAFETY: what the head of this module says.
            unsafe { raw::typst_children(self.read(), path, depth, out.as_mut_ptr(), out.len(), length) }
        })
    }

    /// What is read of each node of a subtree, in preorder. There are `many` nodes.
    pub(crate) fn preorder(&self, path: &[usize], many: usize) -> Result<Vec<NodeInfo>, Error> {
        filled(many, |out: &mut [NodeInfo], length| {
            let (path, depth) = (path.as_ptr(), path.len());
            // SAFETY: what the head of this module says.
            unsafe { raw::typst_preorder(self.read(), path, depth, out.as_mut_ptr(), out.len(), length) }
        })
    }

    pub(crate) fn leaf_text(&self, path: &[usize], len: usize) -> Result<String, Error> {
        let out = filled(len, |out: &mut [u8], length| {
            let (path, depth) = (path.as_ptr(), path.len());
            // SAFETY: what the head of this module says.
            unsafe { raw::typst_leaf_text(self.read(), path, depth, out.as_mut_ptr(), out.len(), length) }
        })?;
        Ok(text(out))
    }

    pub(crate) fn full_text(&self, path: &[usize], len: usize) -> Result<String, Error> {
        let out = filled(len, |out: &mut [u8], length| {
            let (path, depth) = (path.as_ptr(), path.len());
            // SAFETY: what the head of this module says.
            unsafe { raw::typst_full_text(self.read(), path, depth, out.as_mut_ptr(), out.len(), length) }
        })?;
        Ok(text(out))
    }

    /// The index of a child of a class.
    pub(crate) fn child_of_class(
        &self,
        path: &[usize],
        class: u32,
        index: usize,
        from_end: bool,
    ) -> Result<usize, Error> {
        let (many, from_end, mut child) = (path.len(), from_end.into(), 0);
        // SAFETY: what the head of this module says.
        outcome(unsafe {
            raw::typst_child_of_class(self.read(), path.as_ptr(), many, class, index, from_end, &mut child)
        })?;
        Ok(child)
    }

    /// What an accessor returns, and its text.
    pub(crate) fn view(&self, path: &[usize], accessor: u32, index: usize) -> Result<(ViewAnswer, String), Error> {
        let mut answer = ViewAnswer::default();
        let out = filled(64, |out: &mut [u8], length| {
            let (path, depth, to) = (path.as_ptr(), path.len(), out.as_mut_ptr());
            // SAFETY: what the head of this module says.
            let status =
                unsafe { raw::typst_view(self.read(), path, depth, accessor, index, to, out.len(), &mut answer) };
            length.len = answer.len;
            status
        })?;
        Ok((answer, text(out)))
    }

    /// The errors, warnings and hints, and their texts one after the other.
    pub(crate) fn diagnostics(&self) -> Result<(Vec<Diagnostic>, String), Error> {
        let mut sizes = DiagnosticSizes { count: 16, len: 1024 };
        loop {
            let mut out = vec![Diagnostic::default(); sizes.count];
            let mut texts = vec![0; sizes.len];
            // SAFETY: what the head of this module says.
            let status = unsafe {
                raw::typst_diagnostics(
                    self.read(),
                    out.as_mut_ptr(),
                    out.len(),
                    texts.as_mut_ptr(),
                    texts.len(),
                    &mut sizes,
                )
            };
            if is_filled(status)? {
                out.truncate(sizes.count);
                texts.truncate(sizes.len);
                return Ok((out, text(texts)));
            }
        }
    }

    /// Whether the subtrees at two paths are equal apart from spans. The second one is a subtree of another handle or
    /// of this one.
    pub(crate) fn spanless_eq(&self, path: &[usize], other: &Handle, other_path: &[usize]) -> Result<bool, Error> {
        let (many, other_many, mut equal) = (path.len(), other_path.len(), 0);
        let (path, other_path) = (path.as_ptr(), other_path.as_ptr());
        // SAFETY: what the head of this module says. No call gets the same handle twice.
        outcome(unsafe {
            if ptr::eq(self, other) {
                raw::typst_spanless_eq_within(self.read(), path, many, other_path, other_many, &mut equal)
            } else {
                raw::typst_spanless_eq(
                    self.read(),
                    path,
                    many,
                    other.read(),
                    other_path,
                    other_many,
                    &mut equal,
                )
            }
        })?;
        Ok(equal == 1)
    }

    pub(crate) fn find(&self, number: u64) -> Result<Vec<usize>, Error> {
        found(|path, place| {
            // SAFETY: what the head of this module says.
            unsafe { raw::typst_find(self.read(), number, path.as_mut_ptr(), path.len(), place) }
        })
    }

    pub(crate) fn find_range(&self, range: &Range<usize>) -> Result<Vec<usize>, Error> {
        found(|path, place| {
            let (from, to, room) = (range.start, range.end, path.len());
            // SAFETY: what the head of this module says.
            unsafe { raw::typst_find_range(self.read(), from, to, path.as_mut_ptr(), room, place) }
        })
    }

    pub(crate) fn find_cover(&self, range: &Range<usize>) -> Result<Vec<usize>, Error> {
        found(|path, place| {
            let (from, to, room) = (range.start, range.end, path.len());
            // SAFETY: what the head of this module says.
            unsafe { raw::typst_find_cover(self.read(), from, to, path.as_mut_ptr(), room, place) }
        })
    }

    pub(crate) fn leaf_at(&self, cursor: usize, side: u32) -> Result<Vec<usize>, Error> {
        found(|path, place| {
            // SAFETY: what the head of this module says.
            unsafe { raw::typst_leaf_at(self.read(), cursor, side, path.as_mut_ptr(), path.len(), place) }
        })
    }

    pub(crate) fn range_of(&self, path: &[usize]) -> Result<Range<usize>, Error> {
        let mut range = ByteRange::default();
        // SAFETY: what the head of this module says.
        outcome(unsafe { raw::typst_range_of(self.read(), path.as_ptr(), path.len(), &mut range) })?;
        Ok(range.start..range.end)
    }

    pub(crate) fn neighbor(&self, from: &[usize], which: u32) -> Result<Vec<usize>, Error> {
        found(|path, place| {
            // SAFETY: what the head of this module says.
            unsafe {
                raw::typst_neighbor(
                    self.read(),
                    from.as_ptr(),
                    from.len(),
                    which,
                    path.as_mut_ptr(),
                    path.len(),
                    place,
                )
            }
        })
    }

    pub(crate) fn open(&mut self, file: u16, text: &str) -> Result<(), Error> {
        // SAFETY: what the head of this module says.
        outcome(unsafe { raw::typst_open(self.at(), file, text.as_ptr(), text.len()) })
    }

    pub(crate) fn edit(&mut self, range: Range<usize>, with: &str) -> Result<Edited, Error> {
        let mut edited = Edited::default();
        let (from, to) = (range.start, range.end);
        // SAFETY: what the head of this module says.
        outcome(unsafe { raw::typst_edit(self.at(), from, to, with.as_ptr(), with.len(), &mut edited) })?;
        Ok(edited)
    }

    pub(crate) fn set_line_ends(&mut self, ends: u32) -> Result<(), Error> {
        // SAFETY: what the head of this module says.
        outcome(unsafe { raw::typst_set_line_ends(self.at(), ends) })
    }

    pub(crate) fn len_lines(&self) -> Result<usize, Error> {
        let mut count = 0;
        // SAFETY: what the head of this module says.
        outcome(unsafe { raw::typst_len_lines(self.read(), &mut count) })?;
        Ok(count)
    }

    pub(crate) fn line_to_range(&self, line: usize) -> Result<Range<usize>, Error> {
        let mut range = ByteRange::default();
        // SAFETY: what the head of this module says.
        outcome(unsafe { raw::typst_line_to_range(self.read(), line, &mut range) })?;
        Ok(range.start..range.end)
    }

    /// A part of the document's text.
    pub(crate) fn text(&self, range: &Range<usize>) -> Result<String, Error> {
        let out = filled(range.len(), |out: &mut [u8], length| {
            let (from, to, room) = (range.start, range.end, out.len());
            // SAFETY: what the head of this module says.
            unsafe { raw::typst_text(self.read(), from, to, out.as_mut_ptr(), room, length) }
        })?;
        Ok(text(out))
    }

    pub(crate) fn byte_to_line_column(&self, byte: usize, unit: u32) -> Result<LineColumn, Error> {
        let mut place = LineColumn::default();
        // SAFETY: what the head of this module says.
        outcome(unsafe { raw::typst_byte_to_line_column(self.read(), byte, unit, &mut place) })?;
        Ok(place)
    }

    pub(crate) fn line_column_to_byte(&self, line: usize, column: usize, unit: u32) -> Result<usize, Error> {
        let mut byte = 0;
        // SAFETY: what the head of this module says.
        outcome(unsafe { raw::typst_line_column_to_byte(self.read(), line, column, unit, &mut byte) })?;
        Ok(byte)
    }

    /// The same, but a column past the line's text means its end.
    pub(crate) fn line_column_to_byte_clamped(&self, line: usize, column: usize, unit: u32) -> Result<usize, Error> {
        let mut byte = 0;
        // SAFETY: what the head of this module says.
        outcome(unsafe { raw::typst_line_column_to_byte_clamped(self.read(), line, column, unit, &mut byte) })?;
        Ok(byte)
    }

    pub(crate) fn byte_to_offset(&self, byte: usize, unit: u32) -> Result<usize, Error> {
        let mut offset = 0;
        // SAFETY: what the head of this module says.
        outcome(unsafe { raw::typst_byte_to_offset(self.read(), byte, unit, &mut offset) })?;
        Ok(offset)
    }

    pub(crate) fn offset_to_byte(&self, offset: usize, unit: u32) -> Result<usize, Error> {
        let mut byte = 0;
        // SAFETY: what the head of this module says.
        outcome(unsafe { raw::typst_offset_to_byte(self.read(), offset, unit, &mut byte) })?;
        Ok(byte)
    }
}

/// The version of the library.
#[cfg(test)]
pub(crate) fn version() -> u32 {
    // SAFETY: the call has no arguments.
    unsafe { raw::typst_version() }
}

/// The name of the kind with a number, if it has at most `most` bytes. The crate itself has a table of the
/// names, which a test compares with these.
#[cfg(test)]
pub(crate) fn kind_name(kind: u8, most: usize) -> Result<String, Error> {
    let out = filled(most, |out: &mut [u8], length| {
        // SAFETY: what the head of this module says.
        unsafe { raw::typst_kind_name(kind.into(), out.as_mut_ptr(), out.len(), length) }
    })?;
    Ok(text(out))
}

/// The number of the kind with a name.
pub(crate) fn kind_of_name(name: &str) -> Result<u32, Error> {
    let mut kind = 0;
    // SAFETY: what the head of this module says.
    outcome(unsafe { raw::typst_kind_of_name(name.as_ptr(), name.len(), &mut kind) })?;
    Ok(kind)
}

/// The classes of the kind with a number. The crate itself has a table of them, which a test compares with these.
#[cfg(test)]
pub(crate) fn kind_classes(kind: u8) -> Result<KindClasses, Error> {
    let mut classes = KindClasses::default();
    // SAFETY: what the head of this module says.
    outcome(unsafe { raw::typst_kind_classes(kind.into(), &mut classes) })?;
    Ok(classes)
}

/// Whether the set with a number holds the kind with a number.
pub(crate) fn kind_in_set(kind: u8, set: u32) -> Result<bool, Error> {
    let mut held = 0;
    // SAFETY: what the head of this module says.
    outcome(unsafe { raw::typst_kind_in_set(kind.into(), set, &mut held) })?;
    Ok(held == 1)
}

/// The text with these bytes.
fn text(bytes: Vec<u8>) -> String {
    String::from_utf8(bytes).expect("texts of nodes are UTF-8")
}

/// The path that a search returns.
fn found(mut search: impl FnMut(&mut [usize], &mut Place) -> u32) -> Result<Vec<usize>, Error> {
    filled(16, |path: &mut [usize], length| {
        let mut place = Place::default();
        let status = search(path, &mut place);
        length.len = place.depth;
        status
    })
}

impl Drop for Handle {
    fn drop(&mut self) {
        // SAFETY: the session was made by `new`, and is freed once.
        unsafe { raw::typst_free(self.at()) }
    }
}
