use std::marker::PhantomData;
#[derive(Clone, Copy, Debug, PartialEq, Eq)]
pub enum Kind { Program, Identifier, PrivateIdentifier, Literal, ThisExpression, Super, ArrayExpression, ObjectExpression, Property, SpreadElement, FunctionExpression, ArrowFunctionExpression, ClassExpression, ClassBody, MethodDefinition, PropertyDefinition, StaticBlock, TemplateLiteral, TemplateElement, TaggedTemplateExpression, MemberExpression, CallExpression, NewExpression, MetaProperty, ImportExpression, ChainExpression, UpdateExpression, UnaryExpression, AwaitExpression, BinaryExpression, LogicalExpression, ConditionalExpression, AssignmentExpression, SequenceExpression, YieldExpression, ArrayPattern, ObjectPattern, AssignmentPattern, RestElement, ExpressionStatement, BlockStatement, EmptyStatement, DebuggerStatement, ReturnStatement, ThrowStatement, BreakStatement, ContinueStatement, LabeledStatement, IfStatement, SwitchStatement, SwitchCase, TryStatement, CatchClause, WhileStatement, DoWhileStatement, ForStatement, ForInStatement, ForOfStatement, VariableDeclaration, VariableDeclarator, FunctionDeclaration, ClassDeclaration, ImportDeclaration, ImportSpecifier, ImportDefaultSpecifier, ImportNamespaceSpecifier, ExportNamedDeclaration, ExportSpecifier, ExportDefaultDeclaration, ExportAllDeclaration }
impl Kind { pub fn from_name(s: &str) -> Kind { match s { "Program" => Kind::Program, "Identifier" => Kind::Identifier, "PrivateIdentifier" => Kind::PrivateIdentifier, "Literal" => Kind::Literal, "ThisExpression" => Kind::ThisExpression, "Super" => Kind::Super, "ArrayExpression" => Kind::ArrayExpression, "ObjectExpression" => Kind::ObjectExpression, "Property" => Kind::Property, "SpreadElement" => Kind::SpreadElement, "FunctionExpression" => Kind::FunctionExpression, "ArrowFunctionExpression" => Kind::ArrowFunctionExpression, "ClassExpression" => Kind::ClassExpression, "ClassBody" => Kind::ClassBody, "MethodDefinition" => Kind::MethodDefinition, "PropertyDefinition" => Kind::PropertyDefinition, "StaticBlock" => Kind::StaticBlock, "TemplateLiteral" => Kind::TemplateLiteral, "TemplateElement" => Kind::TemplateElement, "TaggedTemplateExpression" => Kind::TaggedTemplateExpression, "MemberExpression" => Kind::MemberExpression, "CallExpression" => Kind::CallExpression, "NewExpression" => Kind::NewExpression, "MetaProperty" => Kind::MetaProperty, "ImportExpression" => Kind::ImportExpression, "ChainExpression" => Kind::ChainExpression, "UpdateExpression" => Kind::UpdateExpression, "UnaryExpression" => Kind::UnaryExpression, "AwaitExpression" => Kind::AwaitExpression, "BinaryExpression" => Kind::BinaryExpression, "LogicalExpression" => Kind::LogicalExpression, "ConditionalExpression" => Kind::ConditionalExpression, "AssignmentExpression" => Kind::AssignmentExpression, "SequenceExpression" => Kind::SequenceExpression, "YieldExpression" => Kind::YieldExpression, "ArrayPattern" => Kind::ArrayPattern, "ObjectPattern" => Kind::ObjectPattern, "AssignmentPattern" => Kind::AssignmentPattern, "RestElement" => Kind::RestElement, "ExpressionStatement" => Kind::ExpressionStatement, "BlockStatement" => Kind::BlockStatement, "EmptyStatement" => Kind::EmptyStatement, "DebuggerStatement" => Kind::DebuggerStatement, "ReturnStatement" => Kind::ReturnStatement, "ThrowStatement" => Kind::ThrowStatement, "BreakStatement" => Kind::BreakStatement, "ContinueStatement" => Kind::ContinueStatement, "LabeledStatement" => Kind::LabeledStatement, "IfStatement" => Kind::IfStatement, "SwitchStatement" => Kind::SwitchStatement, "SwitchCase" => Kind::SwitchCase, "TryStatement" => Kind::TryStatement, "CatchClause" => Kind::CatchClause, "WhileStatement" => Kind::WhileStatement, "DoWhileStatement" => Kind::DoWhileStatement, "ForStatement" => Kind::ForStatement, "ForInStatement" => Kind::ForInStatement, "ForOfStatement" => Kind::ForOfStatement, "VariableDeclaration" => Kind::VariableDeclaration, "VariableDeclarator" => Kind::VariableDeclarator, "FunctionDeclaration" => Kind::FunctionDeclaration, "ClassDeclaration" => Kind::ClassDeclaration, "ImportDeclaration" => Kind::ImportDeclaration, "ImportSpecifier" => Kind::ImportSpecifier, "ImportDefaultSpecifier" => Kind::ImportDefaultSpecifier, "ImportNamespaceSpecifier" => Kind::ImportNamespaceSpecifier, "ExportNamedDeclaration" => Kind::ExportNamedDeclaration, "ExportSpecifier" => Kind::ExportSpecifier, "ExportDefaultDeclaration" => Kind::ExportDefaultDeclaration, "ExportAllDeclaration" => Kind::ExportAllDeclaration, _ => panic!("{s}") } } }
#[derive(Clone, Copy, Debug, PartialEq, Eq)]
pub enum Form { Init, Get, Set, Method, Shorthand, Constructor, Generator, Async, AsyncGenerator }
impl Form { pub fn from_name(s: &str) -> Form { match s { "Init" => Form::Init, "Get" => Form::Get, "Set" => Form::Set, "Method" => Form::Method, "Shorthand" => Form::Shorthand, "Constructor" => Form::Constructor, "Generator" => Form::Generator, "Async" => Form::Async, "AsyncGenerator" => Form::AsyncGenerator, _ => panic!("{s}") } }
  pub fn is_async(self) -> bool { matches!(self, Form::Async | Form::AsyncGenerator) }
  pub fn is_generator(self) -> bool { matches!(self, Form::Generator | Form::AsyncGenerator) } }
#[derive(Clone, Copy, Debug, PartialEq, Eq)]
pub struct Flags { pub computed: bool, pub optional: bool, pub is_static: bool, pub prefix: bool, pub directive: bool, pub expression: bool, pub form: Form }
#[derive(Clone, Copy, Debug, PartialEq, Eq)]
pub struct Span { pub start: usize, pub end: usize }
pub struct Raw { pub kind: Kind, pub span: Span, pub flags: Flags, pub text: String, pub parts: Vec<Option<Raw>> }
#[derive(Clone, Copy)]
pub struct Node<'t, 's> { n: &'t Raw, p: PhantomData<&'s ()> }
#[derive(Clone, Copy)]
pub struct NodeList<'t, 's> { l: &'t [Option<Raw>], p: PhantomData<&'s ()> }
impl<'t, 's> Node<'t, 's> {
  pub fn new(n: &'t Raw) -> Self { Node { n, p: PhantomData } }
  pub fn kind(self) -> Kind { self.n.kind }
  pub fn text(self) -> &'t str { &self.n.text }
  pub fn flags(self) -> Flags { self.n.flags }
  pub fn span(self) -> Span { self.n.span }
  pub fn part_count(self) -> usize { self.n.parts.len() }
  pub fn part(self, i: usize) -> Option<Node<'t, 's>> { self.parts().get(i) }
  pub fn parts(self) -> NodeList<'t, 's> { NodeList { l: &self.n.parts, p: PhantomData } }
}
impl<'t, 's> NodeList<'t, 's> {
  pub fn len(self) -> usize { self.l.len() }
  pub fn get(self, i: usize) -> Option<Node<'t, 's>> { match self.l.get(i) { Some(Some(n)) => Some(Node::new(n)), _ => None } }
  pub fn last(self) -> Option<Node<'t, 's>> { self.get(self.len().saturating_sub(1)) }
  pub fn without_last(self) -> Self { self.take(self.len().saturating_sub(1)) }
  pub fn skip(self, k: usize) -> Self { NodeList { l: &self.l[k.min(self.l.len())..], p: PhantomData } }
  pub fn take(self, k: usize) -> Self { NodeList { l: &self.l[..k.min(self.l.len())], p: PhantomData } }
}
pub struct Program<'s> { pub raw: Raw, pub p: PhantomData<&'s ()> }
impl<'s> Program<'s> { pub fn root(&self) -> Node<'_, 's> { Node::new(&self.raw) } }
