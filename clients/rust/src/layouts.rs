//! The types and functions of the C interface.

use crate::numbers::{
    KIND_ENTER, KIND_EXIT, LINE_ENDING_CARRIAGE_RETURN, LINE_ENDING_CARRIAGE_RETURN_LINE_FEED,
    LINE_ENDING_LINE_FEED,
};
use crate::options::COptions;
use crate::{Event, Kind, LineEnding};
use std::mem::size_of;

#[repr(C)]
pub(crate) struct CAnswer {
    pub(crate) status: u32,
    pub(crate) rule: u32,
    pub(crate) index: usize,
    pub(crate) length: usize,
}

#[repr(C)]
pub(crate) struct CEvent {
    index: usize,
    name: u16,
    other: u16,
    kind: u8,
    columns: u8,
}

#[repr(C)]
pub(crate) struct CText {
    bytes: *const u8,
    length: usize,
    is_set: u8,
}

#[repr(C)]
pub(crate) struct CReference {
    name: *const u8,
    name_length: usize,
    text: *const u8,
    text_length: usize,
}

#[repr(C)]
pub(crate) struct CAttributes {
    pub(crate) rel: CText,
    pub(crate) heading_ids: CText,
}

#[repr(C)]
pub(crate) struct CLimits {
    pub(crate) text: usize,
    pub(crate) work: usize,
    pub(crate) depth: usize,
}

#[repr(C)]
pub(crate) struct CMarkdownOptions {
    pub(crate) version: u32,
    pub(crate) number_ids: u8,
    pub(crate) hard_breaks: u8,
    pub(crate) bare_links: u8,
    pub(crate) html: u8,
    pub(crate) math: u8,
    pub(crate) front_matter: u8,
    pub(crate) footnotes: u8,
    pub(crate) tables: u8,
    pub(crate) unused: [u8; 4],
    pub(crate) footnote_prefix: CText,
    pub(crate) footnote_label: CText,
    pub(crate) footnote_back_label: CText,
    pub(crate) base: CText,
    pub(crate) rel: CText,
    pub(crate) heading_ids: CText,
    pub(crate) max_input: usize,
    pub(crate) max_output: usize,
    pub(crate) max_work: usize,
    pub(crate) max_depth: usize,
}

#[repr(C)]
pub(crate) struct CCleanOptions {
    pub(crate) version: u32,
    pub(crate) unused: [u8; 4],
    pub(crate) tags: CText,
    pub(crate) protocols: CText,
    pub(crate) max_input: usize,
    pub(crate) max_output: usize,
}

const _: () = assert!(size_of::<CAnswer>() == 24);
const _: () = assert!(size_of::<CEvent>() == 16 && size_of::<Event>() == 16);
const _: () = assert!(size_of::<CText>() == 24);
const _: () = assert!(size_of::<CReference>() == 32);
const _: () = assert!(size_of::<COptions>() == 128);
const _: () = assert!(size_of::<CAttributes>() == 48);
const _: () = assert!(size_of::<CLimits>() == 24);
const _: () = assert!(size_of::<CMarkdownOptions>() == 192);
const _: () = assert!(size_of::<CCleanOptions>() == 72);

extern "C" {
    pub(crate) fn bivdrazo_compile(
        events: *const CEvent,
        events_length: usize,
        bytes: *const u8,
        bytes_length: usize,
        options: *const COptions,
        names: *const CReference,
        names_length: usize,
        buffer: *mut u8,
        buffer_length: usize,
    ) -> CAnswer;
    pub(crate) fn bivdrazo_compile_unnested(
        events: *const CEvent,
        events_length: usize,
        bytes: *const u8,
        bytes_length: usize,
        options: *const COptions,
        names: *const CReference,
        names_length: usize,
        buffer: *mut u8,
        buffer_length: usize,
    ) -> CAnswer;
    pub(crate) fn bivdrazo_compile_within(
        events: *const CEvent,
        events_length: usize,
        bytes: *const u8,
        bytes_length: usize,
        options: *const COptions,
        names: *const CReference,
        names_length: usize,
        limits: *const CLimits,
        buffer: *mut u8,
        buffer_length: usize,
    ) -> CAnswer;
    pub(crate) fn bivdrazo_compile_attributed(
        events: *const CEvent,
        events_length: usize,
        bytes: *const u8,
        bytes_length: usize,
        options: *const COptions,
        names: *const CReference,
        names_length: usize,
        attributes: *const CAttributes,
        buffer: *mut u8,
        buffer_length: usize,
    ) -> CAnswer;
    pub(crate) fn bivdrazo_has_nested_link(events: *const CEvent, events_length: usize) -> CAnswer;
    pub(crate) fn bivdrazo_is_safe_html(text: *const u8, text_length: usize) -> u32;
    pub(crate) fn bivdrazo_run(
        script: *const u8,
        script_length: usize,
        buffer: *mut u8,
        buffer_length: usize,
    ) -> CAnswer;
    pub(crate) fn bivdrazo_version() -> u32;
    pub(crate) fn bivdrazo_markdown_into(
        text: *const u8,
        text_length: usize,
        options: *const CMarkdownOptions,
        buffer: *mut u8,
        buffer_length: usize,
    ) -> CAnswer;
    pub(crate) fn bivdrazo_markdown_slugs_into(
        text: *const u8,
        text_length: usize,
        options: *const CMarkdownOptions,
        buffer: *mut u8,
        buffer_length: usize,
    ) -> CAnswer;
    pub(crate) fn bivdrazo_clean_into(
        text: *const u8,
        text_length: usize,
        options: *const CCleanOptions,
        buffer: *mut u8,
        buffer_length: usize,
    ) -> CAnswer;
    pub(crate) fn bivdrazo_front_matter(text: *const u8, text_length: usize) -> CAnswer;
}

pub(crate) fn c_event(event: &Event) -> CEvent {
    let (name, other) = event.name.numbers();
    let kind = match event.kind {
        Kind::Enter => KIND_ENTER,
        Kind::Exit => KIND_EXIT,
    };
    CEvent {
        index: event.index,
        name,
        other,
        kind,
        columns: event.columns,
    }
}

pub(crate) fn c_reference(&(name, text): &(&str, &str)) -> CReference {
    CReference {
        name: name.as_ptr(),
        name_length: name.len(),
        text: text.as_ptr(),
        text_length: text.len(),
    }
}

pub(crate) fn c_text(text: &Option<String>) -> CText {
    let value = text.as_deref().unwrap_or("");
    CText {
        bytes: value.as_ptr(),
        length: value.len(),
        is_set: u8::from(text.is_some()),
    }
}

pub(crate) fn c_line_ending(ending: LineEnding) -> u8 {
    match ending {
        LineEnding::LineFeed => LINE_ENDING_LINE_FEED,
        LineEnding::CarriageReturn => LINE_ENDING_CARRIAGE_RETURN,
        LineEnding::CarriageReturnLineFeed => LINE_ENDING_CARRIAGE_RETURN_LINE_FEED,
    }
}
