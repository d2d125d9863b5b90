#[derive(Clone, Copy, Debug, PartialEq, Eq)]
pub enum TokenClass { IdentifierName, Punctuator, NumericLiteral, StringLiteral, Template, RegularExpressionLiteral, PrivateName, Keyword, End }
#[derive(Clone, Copy)] pub struct CharAt { pub c: char, pub end: usize }
pub struct Trivia { pub end: usize, pub has_line_break: bool }
pub fn char_at(text: &str, at: usize) -> Option<CharAt> { let c = text.get(at..)?.chars().next()?; Some(CharAt { c, end: at + c.len_utf8() }) }
pub fn hashbang_end(text: &str) -> usize { if text.starts_with("#!") { text.find(['\n', '\r', '\u{2028}', '\u{2029}']).unwrap_or(text.len()) } else { 0 } }
pub fn comment(text: &str, at: usize) -> Option<Trivia> {
    let rest = &text[at..];
    if rest.starts_with('/') { let e = rest.find(['\n', '\r', '\u{2028}', '\u{2029}']).unwrap_or(rest.len()); return Some(Trivia { end: at + e, has_line_break: false }); }
    if rest.starts_with('*') { let e = rest[1..].find("*/")? + 3; return Some(Trivia { end: at + e, has_line_break: rest[..e].contains('\n') }); }
    None
}
