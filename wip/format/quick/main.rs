use formatting::{LastCommas, Options, items_of};
use layout_items::{Style, lay_out};
use rstd::Global;
use source_text::{ByteSpan, Source};
use std::io::{Read, Write};
use tokens::TokenClass;
use tree::*;
use unwrapping::{TokenRow, TreeReading};
struct R<'a> { s: &'a [u8], at: usize }
impl<'a> R<'a> {
    fn line(&mut self) -> &'a str { let e = self.s[self.at..].iter().position(|c| *c == b'\n').map(|x| x + self.at).unwrap_or(self.s.len()); let l = std::str::from_utf8(&self.s[self.at..e]).unwrap(); self.at = (e + 1).min(self.s.len()); l }
    fn peek(&self) -> u8 { *self.s.get(self.at).unwrap_or(&b'E') }
    fn node(&mut self) -> Option<Raw> {
        let l = self.line();
        if l == "G" { return None; }
        let w: Vec<&str> = l.split(' ').collect();
        let f = w[4].as_bytes();
        let flags = Flags { computed: f[0] == b'1', optional: f[1] == b'1', is_static: f[2] == b'1', prefix: f[3] == b'1', directive: f[4] == b'1', expression: f[5] == b'1', form: Form::from_name(w[5]) };
        let n: usize = w[6].parse().unwrap(); let len: usize = w[7].parse().unwrap();
        let text = std::str::from_utf8(&self.s[self.at..self.at + len]).unwrap().to_string();
        self.at += len + 1;
        let mut parts = Vec::new();
        for _ in 0..n { parts.push(self.node()); }
        Some(Raw { kind: Kind::from_name(w[1]), span: Span { start: w[2].parse().unwrap(), end: w[3].parse().unwrap() }, flags, text, parts })
    }
}
fn class(s: &str) -> TokenClass { use TokenClass::*; match s { "IdentifierName" => IdentifierName, "Punctuator" => Punctuator, "NumericLiteral" => NumericLiteral, "StringLiteral" => StringLiteral, "Template" => Template, "RegularExpressionLiteral" => RegularExpressionLiteral, "PrivateName" => PrivateName, "Keyword" => Keyword, "End" => End, _ => panic!("{s}") } }
fn laid(text: &str, r: &mut R<'_>) -> Option<std::string::String> {
    let l = r.line();
    if l == "R" { r.line(); return Some("!refused\n".into()); }
    let start: u32 = l[2..].parse().unwrap();
    let raw = r.node().unwrap();
    let mut rows = Vec::new();
    while r.peek() == b'K' {
        let l = r.line(); let w: Vec<&str> = l.split(' ').collect();
        rows.push(TokenRow { span: ByteSpan { start: w[1].parse().unwrap(), end: w[2].parse().unwrap() }, class: class(w[3]), is_postfix: w[4] == "1", ends_export: false, is_grouping: w[5] == "1" });
    }
    assert_eq!(r.line(), "E");
    let reading = TreeReading { start, tokens: rstd::Vec::from_std(rows) };
    let program = Program { raw, p: std::marker::PhantomData };
    let source = Source { text };
    let v = |k: &str| std::env::var(k).ok();
    let options = Options { last_commas: match v("COMMAS").as_deref() { Some("none") => LastCommas::Nowhere, Some("lists") => LastCommas::Lists, _ => LastCommas::Everywhere }, bare_arrows: v("BARE").is_some() };
    let style = Style { width: v("WIDTH").map(|x| x.parse().unwrap()).unwrap_or(80), indent: v("INDENT").map(|x| x.parse().unwrap()).unwrap_or(2), tabs: v("TABS").is_some() };
    let items = items_of(Global, &source, &program, &reading, style, options).ok()??;
    lay_out(&items, style, 16_777_216, Global).ok().map(|s| s.to_string())
}
fn real() {
    let a: Vec<std::string::String> = std::env::args().collect();
    let mut texts = std::string::String::new(); std::fs::File::open(&a[1]).unwrap().read_to_string(&mut texts).unwrap();
    let mut dump = Vec::new(); std::fs::File::open(&a[2]).unwrap().read_to_end(&mut dump).unwrap();
    let mut r = R { s: &dump, at: 0 };
    let mut out = std::io::BufWriter::new(std::io::stdout());
    for t in texts.split("\n@@@@\n") {
        if r.at >= r.s.len() { break; }
        let t = t.to_string();
        match laid(&t, &mut r) { Some(s) => out.write_all(s.as_bytes()).unwrap(), None => out.write_all(b"!lost\n").unwrap() }
        out.write_all(b"@@@@\n").unwrap();
    }
}
fn main() { std::thread::Builder::new().stack_size(1 << 30).spawn(real).unwrap().join().unwrap(); }
