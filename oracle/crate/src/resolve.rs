//! The dispatch of resolvers, in place of the crate's own: the same names lead to the same functions, and the watcher sees what goes in and out.

use crate::construct::{attention, content, gfm_table, heading_atx, heading_setext, label_end, list_item, partial_data, string, text};
use crate::message::Message;
use crate::subtokenize::Subresult;
use crate::tokenizer::Tokenizer;
use crate::watch;

/// The resolvers that a construct can ask for, by the names that the crate's constructs use.
#[derive(Clone, Copy, Debug, Eq, PartialEq)]
pub enum Name {
    Attention,
    Content,
    Data,
    GfmTable,
    HeadingAtx,
    HeadingSetext,
    Label,
    ListItem,
    String,
    Text,
}

/// Run the resolver of that name.
pub fn call(tokenizer: &mut Tokenizer, name: Name) -> Result<Option<Subresult>, Message> {
    let watched = watch::before(tokenizer, name);
    let left = match name {
        Name::Attention => attention::resolve(tokenizer),
        Name::HeadingAtx => heading_atx::resolve(tokenizer),
        Name::ListItem => list_item::resolve(tokenizer),
        Name::Content => content::resolve(tokenizer)?,
        Name::Data => partial_data::resolve(tokenizer),
        Name::GfmTable => gfm_table::resolve(tokenizer),
        Name::HeadingSetext => heading_setext::resolve(tokenizer),
        Name::Label => label_end::resolve(tokenizer),
        Name::String => string::resolve(tokenizer),
        Name::Text => text::resolve(tokenizer),
    };
    watch::after(tokenizer, watched);
    Ok(left)
}
