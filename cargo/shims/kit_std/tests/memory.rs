//! A process with the allocator of a program: some calls return a refusal, and any other ends it.
use kit_std::alloc::{AllocError, Global};
use kit_std::memory::Reporting;
use kit_std::vec::Vec;
use std::env::current_exe;
use std::hint::black_box;
use std::process::Command;

#[global_allocator]
static MEMORY: Reporting = Reporting::new("memory: out of memory\n");

/// No system has so many bytes.
const TOO_MANY: usize = isize::MAX as usize;

#[test]
fn a_refusal_that_is_returned_ends_nothing() {
    let mut bytes = Vec::from_array(Global, *b"ab").unwrap();
    assert_eq!(bytes.resize(TOO_MANY, 0), Err(AllocError));
    assert_eq!(bytes.as_slice(), b"ab");
}

#[test]
#[ignore = "the process ends"]
fn a_refusal_in_rust() {
    black_box(std::vec::Vec::<u8>::with_capacity(black_box(TOO_MANY)));
}

#[test]
fn a_refusal_in_rust_ends_the_process() {
    let words = ["--exact", "a_refusal_in_rust", "--ignored"];
    let ended = Command::new(current_exe().unwrap()).args(words).output().unwrap();
    assert_eq!(ended.status.code(), Some(3));
    assert_eq!(ended.stderr, b"memory: out of memory\n");
}
