//! The functions of the library and the structs that they read and write, as `bindings/c/typst.h` declares them.

use std::ffi::c_void;

/// A session, or nothing if it is all zero.
#[repr(C)]
pub struct Session {
    pub made: u64,
    pub at: *mut c_void,
}

/// What one call reads of a node.
#[repr(C)]
#[derive(Clone, Copy, Debug, Default, PartialEq, Eq)]
pub struct NodeInfo {
    pub number: u64,
    pub bound: u64,
    pub len: usize,
    pub children: usize,
    pub descendants: usize,
    pub kind: u32,
    pub leaf: u8,
    pub inner: u8,
    pub errors: u8,
    pub warnings: u8,
}

/// Where a node was found.
#[repr(C)]
#[derive(Clone, Copy, Debug, Default)]
pub struct Place {
    pub depth: usize,
    pub offset: usize,
}

/// The length of a text, or a number of nodes.
#[repr(C)]
#[derive(Clone, Copy, Debug, Default)]
pub struct Length {
    pub len: usize,
}

/// A range of bytes of a text.
#[repr(C)]
#[derive(Clone, Copy, Debug, Default)]
pub struct ByteRange {
    pub start: usize,
    pub end: usize,
}

/// A place in a text, by its line and column.
#[repr(C)]
#[derive(Clone, Copy, Debug, Default)]
pub struct LineColumn {
    pub line: usize,
    pub column: usize,
}

/// What an accessor returns for a node.
#[repr(C)]
#[derive(Clone, Copy, Debug, Default)]
pub struct ViewAnswer {
    pub number: u64,
    pub integer: i64,
    pub len: usize,
    pub form: u32,
}

/// An error, a warning or a hint.
#[repr(C)]
#[derive(Clone, Copy, Debug, Default)]
pub struct Diagnostic {
    pub number: u64,
    pub start: usize,
    pub end: usize,
    pub len: usize,
    pub severity: u32,
    pub placed: u32,
}

/// How many diagnostics there are, and how long their texts are.
#[repr(C)]
#[derive(Clone, Copy, Debug, Default)]
pub struct DiagnosticSizes {
    pub count: usize,
    pub len: usize,
}

/// The classes of a kind.
#[repr(C)]
#[derive(Clone, Copy, Debug, Default, PartialEq, Eq)]
#[cfg_attr(not(test), allow(dead_code))]
pub struct KindClasses {
    pub grouping: u8,
    pub terminator: u8,
    pub block: u8,
    pub stmt: u8,
    pub keyword: u8,
    pub trivia: u8,
}

/// The range of children that an edit numbered anew.
#[repr(C)]
#[derive(Clone, Copy, Debug, Default)]
pub struct Window {
    pub start: usize,
    pub end: usize,
    pub tried: usize,
}

/// What an edit changed of the tree.
#[repr(C)]
#[derive(Clone, Copy, Debug, Default)]
pub struct Change {
    pub depth: usize,
    pub window: Window,
    pub moved: usize,
    pub root: u32,
}

/// What an edit of a document did.
#[repr(C)]
#[derive(Clone, Copy, Debug, Default)]
pub struct Edited {
    pub start: usize,
    pub end: usize,
    pub change: Change,
}

#[allow(unsafe_code)]
extern "C" {
    pub fn typst_new(session: *mut Session) -> u32;
    pub fn typst_copy(session: *const Session, copy: *mut Session) -> u32;
    pub fn typst_free(session: *mut Session);
    #[cfg_attr(not(test), allow(dead_code))]
    pub fn typst_version() -> u32;
    pub fn typst_push_leaf(session: *mut Session, kind: u32, text: *const u8, text_len: usize) -> u32;
    pub fn typst_push_error(
        session: *mut Session,
        message: *const u8,
        message_len: usize,
        text: *const u8,
        text_len: usize,
    ) -> u32;
    pub fn typst_push_copy(session: *mut Session, path: *const usize, depth: usize) -> u32;
    pub fn typst_warn(session: *mut Session, message: *const u8, message_len: usize) -> u32;
    pub fn typst_hint(session: *mut Session, text: *const u8, text_len: usize) -> u32;
    pub fn typst_wrap(session: *mut Session, kind: u32, count: usize) -> u32;
    pub fn typst_pop(session: *mut Session, count: usize) -> u32;
    pub fn typst_number(session: *mut Session, file: u16, from: u64, to: u64) -> u32;
    pub fn typst_renumber(session: *mut Session, file: u16, from: u64, to: u64) -> u32;
    pub fn typst_take_tree(session: *mut Session) -> u32;
    pub fn typst_replace(
        session: *mut Session,
        path: *const usize,
        depth: usize,
        from: usize,
        to: usize,
        count: usize,
        window: *mut Window,
    ) -> u32;
    pub fn typst_reconcile(
        session: *mut Session,
        path: *const usize,
        depth: usize,
        from: usize,
        to: usize,
        count: usize,
        change: *mut Change,
    ) -> u32;
    pub fn typst_update(session: *mut Session, change: *mut Change) -> u32;
    pub fn typst_follow(session: *const Session, number: u64, now: *mut u64) -> u32;
    pub fn typst_edited_path(session: *const Session, out: *mut usize, room: usize, length: *mut Length) -> u32;
    pub fn typst_send(session: *mut Session, other: *mut Session) -> u32;
    pub fn typst_node(session: *const Session, path: *const usize, depth: usize, info: *mut NodeInfo) -> u32;
    pub fn typst_children(
        session: *const Session,
        path: *const usize,
        depth: usize,
        out: *mut NodeInfo,
        room: usize,
        length: *mut Length,
    ) -> u32;
    pub fn typst_preorder(
        session: *const Session,
        path: *const usize,
        depth: usize,
        out: *mut NodeInfo,
        room: usize,
        length: *mut Length,
    ) -> u32;
    pub fn typst_leaf_text(
        session: *const Session,
        path: *const usize,
        depth: usize,
        out: *mut u8,
        room: usize,
        length: *mut Length,
    ) -> u32;
    pub fn typst_full_text(
        session: *const Session,
        path: *const usize,
        depth: usize,
        out: *mut u8,
        room: usize,
        length: *mut Length,
    ) -> u32;
    pub fn typst_child_of_class(
        session: *const Session,
        path: *const usize,
        depth: usize,
        node_class: u32,
        index: usize,
        from_end: u32,
        child: *mut usize,
    ) -> u32;
    pub fn typst_view(
        session: *const Session,
        path: *const usize,
        depth: usize,
        accessor: u32,
        index: usize,
        out: *mut u8,
        room: usize,
        answer: *mut ViewAnswer,
    ) -> u32;
    pub fn typst_diagnostics(
        session: *const Session,
        out: *mut Diagnostic,
        room: usize,
        texts: *mut u8,
        texts_room: usize,
        sizes: *mut DiagnosticSizes,
    ) -> u32;
    pub fn typst_spanless_eq_within(
        session: *const Session,
        path: *const usize,
        depth: usize,
        other_path: *const usize,
        other_depth: usize,
        equal: *mut u32,
    ) -> u32;
    pub fn typst_spanless_eq(
        session: *const Session,
        path: *const usize,
        depth: usize,
        other: *const Session,
        other_path: *const usize,
        other_depth: usize,
        equal: *mut u32,
    ) -> u32;
    pub fn typst_find(session: *const Session, number: u64, path: *mut usize, room: usize, place: *mut Place) -> u32;
    pub fn typst_find_range(
        session: *const Session,
        from: usize,
        to: usize,
        path: *mut usize,
        room: usize,
        place: *mut Place,
    ) -> u32;
    pub fn typst_find_cover(
        session: *const Session,
        from: usize,
        to: usize,
        path: *mut usize,
        room: usize,
        place: *mut Place,
    ) -> u32;
    pub fn typst_leaf_at(
        session: *const Session,
        cursor: usize,
        side: u32,
        path: *mut usize,
        room: usize,
        place: *mut Place,
    ) -> u32;
    pub fn typst_range_of(session: *const Session, path: *const usize, depth: usize, range: *mut ByteRange) -> u32;
    pub fn typst_neighbor(
        session: *const Session,
        path: *const usize,
        depth: usize,
        which: u32,
        found: *mut usize,
        room: usize,
        place: *mut Place,
    ) -> u32;
    pub fn typst_open(session: *mut Session, file: u16, text: *const u8, text_len: usize) -> u32;
    pub fn typst_edit(
        session: *mut Session,
        from: usize,
        to: usize,
        with: *const u8,
        with_len: usize,
        edited: *mut Edited,
    ) -> u32;
    pub fn typst_set_line_ends(session: *mut Session, ends: u32) -> u32;
    pub fn typst_len_lines(session: *const Session, count: *mut usize) -> u32;
    pub fn typst_line_to_range(session: *const Session, line: usize, range: *mut ByteRange) -> u32;
    pub fn typst_text(
        session: *const Session,
        from: usize,
        to: usize,
        out: *mut u8,
        room: usize,
        length: *mut Length,
    ) -> u32;
    pub fn typst_byte_to_line_column(session: *const Session, byte: usize, unit: u32, place: *mut LineColumn) -> u32;
    pub fn typst_line_column_to_byte(
        session: *const Session,
        line: usize,
        column: usize,
        unit: u32,
        byte: *mut usize,
    ) -> u32;
    pub fn typst_line_column_to_byte_clamped(
        session: *const Session,
        line: usize,
        column: usize,
        unit: u32,
        byte: *mut usize,
    ) -> u32;
    pub fn typst_byte_to_offset(session: *const Session, byte: usize, unit: u32, offset: *mut usize) -> u32;
    pub fn typst_offset_to_byte(session: *const Session, offset: usize, unit: u32, byte: *mut usize) -> u32;
    #[cfg_attr(not(test), allow(dead_code))]
    pub fn typst_kind_name(kind: u32, out: *mut u8, room: usize, length: *mut Length) -> u32;
    pub fn typst_kind_of_name(name: *const u8, name_len: usize, kind: *mut u32) -> u32;
    #[cfg_attr(not(test), allow(dead_code))]
    pub fn typst_kind_classes(kind: u32, classes: *mut KindClasses) -> u32;
    pub fn typst_kind_in_set(kind: u32, set: u32, held: *mut u32) -> u32;
}
