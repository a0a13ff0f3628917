// Stand-in for parser/errors.rs: each emit function records what it is given, under the
// kind that document 01 gives it. Where a token is passed, its span stands.

use crate::{
    lexer::{ErrorToken, Token, TokenIdx},
    parser::Parser,
};
use plank_core::Span;
use plank_session::{SourceByteOffset, SourceSpan};

impl Parser<'_> {
    fn report_at_token(&mut self, kind: u32, detail: u32, ti: TokenIdx) {
        let span = self.tokens.token_src_span(ti);
        self.session.report(kind, detail, span);
    }

    pub(crate) fn emit_lexer_error(&mut self, error: ErrorToken, ti: TokenIdx) {
        self.report_at_token(1, error as u32, ti);
    }

    pub(crate) fn emit_unexpected_token(&mut self, found: Token, span: SourceSpan) {
        self.session.report(2, found as u32, span);
    }

    pub(crate) fn emit_missing_token(&mut self, wanted: Token, span: SourceSpan) {
        self.session.report(3, wanted as u32, span);
    }

    pub(crate) fn emit_missing_specific(&mut self, wanted: Token, span: SourceSpan) {
        self.session.report(4, wanted as u32, span);
    }

    pub(crate) fn emit_builtin_name_used_as_ident(&mut self, span: SourceSpan) {
        self.session.report(5, 0, span);
    }

    pub(crate) fn emit_struct_field_after_method(&mut self, ti: TokenIdx) {
        self.report_at_token(6, 0, ti);
    }

    /// Called right after the star was passed: its span is the last one.
    pub(crate) fn emit_glob_in_import_group(&mut self) {
        self.session.report(7, 0, self.last_src_span);
    }

    pub(crate) fn emit_path_in_import_group(&mut self, path_start: TokenIdx) {
        self.report_at_token(8, 0, path_start);
    }

    pub(crate) fn emit_empty_import_group(&mut self, brace: TokenIdx) {
        self.report_at_token(9, 0, brace);
    }

    pub(crate) fn emit_unnecessary_braces(&mut self, brace: TokenIdx) {
        self.report_at_token(10, 0, brace);
    }

    pub(crate) fn emit_unicode_disallowed_in_string(&mut self, span: SourceSpan) {
        self.session.report(11, 0, span);
    }

    pub(crate) fn emit_invalid_hex_escape(&mut self, span: SourceSpan) {
        self.session.report(12, 0, span);
    }

    pub(crate) fn emit_unrecognized_escape(&mut self, span: SourceSpan, found: char) {
        self.session.report(13, found as u32, span);
    }

    /// Given an offset and the character there: one character's span.
    pub(crate) fn emit_non_hex_digit(&mut self, start: SourceByteOffset, found: char) {
        let end = start + found.len_utf8() as u32;
        self.session.report(14, found as u32, Span::new(start, end));
    }

    pub(crate) fn emit_odd_hex_digit_count(&mut self, ti: TokenIdx) {
        self.report_at_token(15, 0, ti);
    }
}
