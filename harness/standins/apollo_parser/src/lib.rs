//! Stands in for apollo-parser: it reads nothing and finds no error. Documents come from cards instead.

use std::marker::PhantomData;

pub mod cst {
    pub trait CstNode {}

    pub struct Document;
    pub struct SelectionSet;
    pub struct Type;

    impl CstNode for Document {}
    impl CstNode for SelectionSet {}
    impl CstNode for Type {}
}

pub struct SyntaxNode;

impl SyntaxNode {
    pub fn text_range(&self) -> rowan::TextRange {
        rowan::TextRange::at(0.into(), 0.into())
    }
}

pub struct Parser;

impl Parser {
    pub fn new(_input: &str) -> Self {
        Parser
    }

    pub fn recursion_limit(self, _limit: usize) -> Self {
        self
    }

    pub fn token_limit(self, _limit: usize) -> Self {
        self
    }

    pub fn parse(self) -> SyntaxTree<cst::Document> {
        SyntaxTree(PhantomData)
    }

    pub fn parse_selection_set(self) -> SyntaxTree<cst::SelectionSet> {
        SyntaxTree(PhantomData)
    }

    pub fn parse_type(self) -> SyntaxTree<cst::Type> {
        SyntaxTree(PhantomData)
    }
}

pub struct SyntaxTree<T>(PhantomData<T>);

impl<T> SyntaxTree<T> {
    pub fn errors(&self) -> std::slice::Iter<'_, Error> {
        [].iter()
    }

    pub fn recursion_limit(&self) -> LimitTracker {
        LimitTracker { high: 0 }
    }

    pub fn token_limit(&self) -> LimitTracker {
        LimitTracker { high: 0 }
    }
}

impl SyntaxTree<cst::Document> {
    pub fn document(&self) -> cst::Document {
        cst::Document
    }
}

impl SyntaxTree<cst::SelectionSet> {
    pub fn field_set(&self) -> cst::SelectionSet {
        cst::SelectionSet
    }
}

impl SyntaxTree<cst::Type> {
    pub fn ty(&self) -> cst::Type {
        cst::Type
    }
}

pub struct LimitTracker {
    pub high: usize,
}

pub struct Error;

impl Error {
    pub fn index(&self) -> usize {
        0
    }

    pub fn data(&self) -> &str {
        ""
    }

    pub fn message(&self) -> &str {
        ""
    }

    pub fn is_limit(&self) -> bool {
        false
    }
}
