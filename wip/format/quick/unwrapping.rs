use source_text::ByteSpan; use tokens::TokenClass;
#[derive(Clone, Copy)]
pub struct TokenRow { pub span: ByteSpan, pub class: TokenClass, pub is_postfix: bool, pub ends_export: bool, pub is_grouping: bool }
pub struct TreeReading { pub start: u32, pub tokens: rstd::Vec<TokenRow> }
