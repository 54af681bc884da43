//! Setters of options, attributes and limits, for use in one expression: each takes the value and
//! returns it with one field set.

use crate::{Attributes, Limits, LineEnding, Options};

/// Setters of a type: the name of each, the field, the type of the argument, and the new value.
macro_rules! setters {
    ($type:ident: $($setter:ident($field:ident: $taken:ty) = $made:expr;)*) => {
        impl $type {
            $(
                #[doc = concat!(
                    "Sets [`", stringify!($field), "`](",
                    stringify!($type), "::", stringify!($field), ")."
                )]
                #[must_use]
                pub fn $setter(mut self, $field: $taken) -> $type {
                    self.$field = $made;
                    self
                }
            )*
        }
    };
}

pub(crate) use setters;

setters! { Options:
    with_allow_any_img_src(allow_any_img_src: bool) = allow_any_img_src;
    with_allow_dangerous_html(allow_dangerous_html: bool) = allow_dangerous_html;
    with_allow_dangerous_protocol(allow_dangerous_protocol: bool) = allow_dangerous_protocol;
    with_gfm_task_list_item_checkable(gfm_task_list_item_checkable: bool) =
        gfm_task_list_item_checkable;
    with_gfm_tagfilter(gfm_tagfilter: bool) = gfm_tagfilter;
    with_default_line_ending(default_line_ending: LineEnding) = default_line_ending;
    with_gfm_footnote_number_ids(gfm_footnote_number_ids: bool) = gfm_footnote_number_ids;
    with_gfm_footnote_back_label(gfm_footnote_back_label: impl Into<String>) =
        Some(gfm_footnote_back_label.into());
    with_gfm_footnote_clobber_prefix(gfm_footnote_clobber_prefix: impl Into<String>) =
        Some(gfm_footnote_clobber_prefix.into());
    with_gfm_footnote_label(gfm_footnote_label: impl Into<String>) =
        Some(gfm_footnote_label.into());
    with_gfm_footnote_label_attributes(gfm_footnote_label_attributes: impl Into<String>) =
        Some(gfm_footnote_label_attributes.into());
    with_gfm_footnote_label_tag_name(gfm_footnote_label_tag_name: impl Into<String>) =
        Some(gfm_footnote_label_tag_name.into());
}

setters! { Attributes:
    with_rel(rel: impl Into<String>) = Some(rel.into());
    with_heading_ids(heading_ids: impl Into<String>) = Some(heading_ids.into());
}

setters! { Limits:
    with_text(text: usize) = text;
    with_work(work: usize) = work;
    with_depth(depth: usize) = depth;
}
