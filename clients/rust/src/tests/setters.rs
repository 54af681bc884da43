//! Each setter sets its field, and nothing else.

use crate::{Attributes, Limits, LineEnding, Options};
use std::fmt::Debug;

/// Checks that a setter changes only this field of the default.
pub(crate) fn sets<T: Debug + Default + PartialEq>(made: T, set: impl Fn(&mut T)) {
    let mut wanted = T::default();
    assert_ne!(made, wanted);
    set(&mut wanted);
    assert_eq!(made, wanted);
}

/// A set text.
pub(crate) fn text() -> Option<String> {
    Some("a".to_string())
}

#[test]
fn flags() {
    let new = Options::default;
    sets(new().with_allow_any_img_src(true), |it| {
        it.allow_any_img_src = true;
    });
    sets(new().with_allow_dangerous_html(true), |it| {
        it.allow_dangerous_html = true;
    });
    sets(new().with_allow_dangerous_protocol(true), |it| {
        it.allow_dangerous_protocol = true;
    });
    sets(new().with_gfm_task_list_item_checkable(true), |it| {
        it.gfm_task_list_item_checkable = true;
    });
    sets(new().with_gfm_tagfilter(true), |it| it.gfm_tagfilter = true);
    sets(new().with_gfm_footnote_number_ids(true), |it| {
        it.gfm_footnote_number_ids = true;
    });
    let ending = LineEnding::CarriageReturn;
    sets(new().with_default_line_ending(ending), |it| {
        it.default_line_ending = ending;
    });
    let on = new().with_gfm_tagfilter(true);
    assert_eq!(on.with_gfm_tagfilter(false), new());
}

#[test]
fn texts() {
    let new = Options::default;
    sets(new().with_gfm_footnote_back_label("a"), |it| {
        it.gfm_footnote_back_label = text();
    });
    sets(new().with_gfm_footnote_clobber_prefix("a"), |it| {
        it.gfm_footnote_clobber_prefix = text();
    });
    sets(new().with_gfm_footnote_label("a".to_string()), |it| {
        it.gfm_footnote_label = text();
    });
    sets(new().with_gfm_footnote_label_attributes("a"), |it| {
        it.gfm_footnote_label_attributes = text();
    });
    sets(new().with_gfm_footnote_label_tag_name("a"), |it| {
        it.gfm_footnote_label_tag_name = text();
    });
}

#[test]
fn attributes_and_limits() {
    sets(Attributes::default().with_rel("a"), |it| it.rel = text());
    sets(Attributes::default().with_heading_ids("a"), |it| {
        it.heading_ids = text();
    });
    sets(Limits::default().with_text(1), |it| it.text = 1);
    sets(Limits::default().with_work(1), |it| it.work = 1);
    sets(Limits::default().with_depth(1), |it| it.depth = 1);
}
