//! Inline content as HTML, by the crate's own compiler.

use crate::{parser, to_html, CompileOptions, ParseOptions};

/// What is put before a text, so that a paragraph begins there, whatever the text is. No construct of a text looks back past the space.
const BEFORE: &str = "a ";

/// What the crate makes of a text of one line within a block, with CommonMark's constructs alone.
pub fn inline_html(text: &str) -> Option<String> {
    let document = [BEFORE, text].concat();
    let constructs = ParseOptions::default();
    // Only MDX has errors, and it is off.
    let (events, state) = parser::parse(&document, &constructs).ok()?;
    let as_it_stands = CompileOptions { allow_dangerous_html: true, allow_dangerous_protocol: true, ..CompileOptions::default() };
    let html = to_html::compile(&events, state.bytes, &as_it_stands);
    Some(html.strip_prefix("<p>")?.strip_prefix(BEFORE)?.strip_suffix("</p>")?.into())
}
