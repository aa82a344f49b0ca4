//! The library, behind the boundary of the crate `measured`.

use crate::input::{ErrorRow, Input, NodeRow};

// A slice crosses as a pointer and a length; `heap: Global` takes no bytes, and is passed nothing.
unsafe extern "C" {
    fn measured_building(
        errors: *const ErrorRow,
        error_count: usize,
        texts: *const u8,
        text_len: usize,
        kind: u8,
        size: u32,
        repeats: u32,
    ) -> u64;

    fn measured_report(
        errors: *const ErrorRow,
        error_count: usize,
        texts: *const u8,
        text_len: usize,
        nodes: *const NodeRow,
        node_count: usize,
        question: u8,
        repeats: u32,
    ) -> u64;

    fn measured_chain(
        errors: *const ErrorRow,
        error_count: usize,
        texts: *const u8,
        text_len: usize,
        nodes: *const NodeRow,
        node_count: usize,
        work: u8,
        repeats: u32,
    ) -> u64;

    fn measured_print(
        errors: *const ErrorRow,
        error_count: usize,
        texts: *const u8,
        text_len: usize,
        nodes: *const NodeRow,
        node_count: usize,
        out: *mut u8,
        out_len: usize,
        form: u8,
        repeats: u32,
    ) -> u64;
}

/// Calls that build a report.
#[derive(Clone, Copy)]
pub enum Build {
    Raises = 0,
    Joins = 1,
    RaiseAll = 2,
}

/// Questions to a report.
#[derive(Clone, Copy)]
pub enum Question {
    Class = 0,
    Retry = 1,
    Cause = 2,
}

/// Work on a chain: the same questions, and the ways back.
#[derive(Clone, Copy)]
pub enum Work {
    Class = 0,
    Retry = 1,
    Cause = 2,
    Rebuild = 3,
    RoundTrip = 4,
}

/// The forms of a print.
#[derive(Clone, Copy)]
pub enum Form {
    Tree = 0,
    Lines = 1,
    Inline = 2,
}

pub fn building(input: &Input, build: Build, size: usize, repeats: u32) -> u64 {
    let (errors, texts) = (&input.errors, &input.texts);
    // SAFETY: each pointer and length are those of one slice, which is borrowed for the call; the rows are laid out as in
    // the crate `measured`, whose exports require nothing.
    unsafe {
        measured_building(errors.as_ptr(), errors.len(), texts.as_ptr(), texts.len(), build as u8, size as u32, repeats)
    }
}

pub fn report(input: &Input, question: Question, repeats: u32) -> u64 {
    let (errors, texts, nodes) = (&input.errors, &input.texts, &input.nodes);
    // SAFETY: as in `building`.
    unsafe {
        measured_report(
            errors.as_ptr(),
            errors.len(),
            texts.as_ptr(),
            texts.len(),
            nodes.as_ptr(),
            nodes.len(),
            question as u8,
            repeats,
        )
    }
}

pub fn chain(input: &Input, work: Work, repeats: u32) -> u64 {
    let (errors, texts, nodes) = (&input.errors, &input.texts, &input.nodes);
    // SAFETY: as in `building`.
    unsafe {
        measured_chain(
            errors.as_ptr(),
            errors.len(),
            texts.as_ptr(),
            texts.len(),
            nodes.as_ptr(),
            nodes.len(),
            work as u8,
            repeats,
        )
    }
}

pub fn print(input: &Input, form: Form, out: &mut [u8], repeats: u32) -> u64 {
    let (errors, texts, nodes) = (&input.errors, &input.texts, &input.nodes);
    // SAFETY: as in `building`; the buffer is lent to this call alone.
    unsafe {
        measured_print(
            errors.as_ptr(),
            errors.len(),
            texts.as_ptr(),
            texts.len(),
            nodes.as_ptr(),
            nodes.len(),
            out.as_mut_ptr(),
            out.len(),
            form as u8,
            repeats,
        )
    }
}
