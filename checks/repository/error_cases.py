"""Sources on which `errors` is tested: what it must refuse, and what it must accept."""

from __future__ import annotations

LEXED = [
    ('a "// no comment" b', ["a", '""', "b"]),
    ('a // a comment "\nb', ["a", "b"]),
    ("/* one /* two */ still */ a", ["a"]),
    (r'"\"" a', ['""', "a"]),
    ('r#"a " b"# c br"\\" d', ['""', "c", '""', "d"]),
    ("'a' 'static '\\'' b'\"' c", ['""', "'static", '""', '""', "c"]),
    ("x.0..y::z", ["x", ".", "0", ".", ".", "y", "::", "z"]),
    (
        '/// a doc\n//! a doc\n/** a /* b */ c */ /*! d */ #[e("f")] g',
        ["#", "[", "e", "(", '""', ")", "]", "g"],
    ),
    ("a=>b==c", ["a", "=>", "b", "==", "c"]),
]


# A comment that doesn't end would hide the code after it from the search, so it must be refused.
UNENDED = "/* a comment /* in a comment */ AllocError"


REFUSED = [
    "fn f() { Err(OutOfMemory::from(std::alloc::AllocError)) }",
    "fn f() { Err(AllocFailed { value: 0 })? }",
    "fn f() { Err(SpawnError { value: 0 })? }",
    "fn f() { Err(TryReserveError {})? }",
    "use std::alloc::*;",
    "use std::{alloc::*, io};",
    'fn f() { let _ = "//"; Err(AllocError) }',
    "fn f() { let _ = '\"'; Err(AllocError) /* \" */ }",
    "macro_rules! none { () => { 1 } }",
    "fn f() { Err(ErrorKind::OutOfMemory)? }",
    "fn f() { if error.kind() == ErrorKind::OutOfMemory {} }",
    "fn f() { match x { Err(e) if e.kind() == ErrorKind::Other => 1, _ => 2 } }",
    "fn f() { match x { _ => g(ErrorKind::OutOfMemory), } }",
    "fn f() { match x { _ if h(ErrorKind::OutOfMemory) => 1, } }",
    "fn f() { matches!(g(ErrorKind::OutOfMemory), 1) }",
    "fn f() { matches!(g, _ if h(ErrorKind::Other)) }",
    "use std::io::ErrorKind as Kind;",
    "use std::io::ErrorKind::OutOfMemory;",
    "type Kind = ErrorKind;",
    "type Bad = io::Error;",
    "use std::io::Error as Bad;",
    'fn f() { io::Error::new(kind, "x") }',
    "fn f() { io::Error::other(1) }",
    "fn f() { std::io::Error::from_raw_os_error(12) }",
    "fn f() { command.error(kind, text) }",
    "fn f() { unsafe { g() } }",
    "fn f() { std::mem::forget(pattern); }",
    "fn f() { ManuallyDrop::new(pattern); }",
    "fn f() { count.fetch_add(1, Ordering::Relaxed); }",
    "use std::sync::atomic::Ordering::Acquire;",
    "impl Drop for A { fn drop(self) { let A { b, c } = self; drop(b); } }",
    "impl Drop for A { fn drop(self) { let A { b, .. } = self; drop(b); } }",
    "impl Drop for A { fn drop(self) { let A { b, c } = self; drop(b); keep(c); } }",
    "impl<T> Drop for A<T> { fn drop(self) {} }",
]


PASSED = [
    'fn f() { "AllocError" }',
    "// AllocError\n/* unsafe */",
    "ghost use Rattle.std.specs.Prelude.{◌*◌, AllocError};",
    "fn f() ensures { result ≡ ErrorKind.OutOfMemory } {}",
    "use std::io::{self, ErrorKind, Read};",
    "fn f() { match error.kind() { ErrorKind::Interrupted => 1, ErrorKind::OutOfMemory | ErrorKind::Other => 2, _ => 3 } }",
    "fn f() { matches!(error.kind(), ErrorKind::Interrupted) }",
    "fn f() { match x { Err(Some(ErrorKind::Other)) => 1, _ => 2 } }",
    "struct S { kind: Option<ErrorKind> }",
    "fn f(error: &io::Error) {}",
    "fn f() { OutOfMemory::of_stream(&error) }",
    "fn f() -> Ordering { Ordering::Less }",
    "impl Drop for A { fn drop(self) { let A { b, c: _, } = self; drop(b); } }",
]

# A file's name, its source on one line, and whether this line must be listed in places.md.
PLACES: list[tuple[str, str, list[str]]] = [
    (name, source, [source] * is_listed)
    for name, source, is_listed in [
        ("a/b.rt", "fn f() { for _ in rt.forever() { g() } }", True),
        ("a/b.rt", "fn f() { for _ in 0..5_000_000_000u64 {} }", True),
        ("a/b.rt", "fn f() { for _ in 0..0x1_0000_0000 {} }", True),
        ("a/b.rt", "fn f() { for _ in 0..(1 << 32) {} }", True),
        ("a/b.rt", "fn f() { for _ in 0..u32::MAX {} }", True),
        ("a/b.rt", "fn f() { for _ in 0..4_294_967_295 {} }", False),
        ("a/b.rt", "fn f() { for _ in 0..1 << 24 {} }", False),
        ("a/b.rt", "fn f(n: u8) { n == u8::MAX }", False),
        ("a/b.rt", "fn f() { WriteError { kind } }", True),
        ("a/b.rt", "fn f() { WriteError::of_stream(&error) }", True),
        ("plane_core/output.rt", "impl WriteError { fn f() { Self { kind } } }", True),
        ("a/b.rt", "fn f() -> WriteError { g() }", False),
        ("a/b.rt", "fn f() { Err(no_room()) }", True),
        ("a/b.rt", "fn no_room() -> WriteError { g() }", False),
        ("a/b.rt", "fn f() { count.load(Ordering::SeqCst) }", True),
        ("handover/b.rt", "fn f() { self.left.notify() }", True),
        ("a/b.rt", "fn f() { self.left.notify() }", False),
        ("census/main.rt", "fn main() { f() }", True),
        ("a/main.rt", "fn main() { f() }", False),
    ]
]
