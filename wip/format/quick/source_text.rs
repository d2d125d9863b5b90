pub struct Source<'t> { pub text: &'t str }
impl<'t> Source<'t> { pub fn text(&self) -> &'t str { self.text } }
#[derive(Clone, Copy, Debug, PartialEq, Eq)] pub struct ByteSpan { pub start: u32, pub end: u32 }
