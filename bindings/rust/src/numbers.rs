//! The numbers of 01's words. The unit test below compares each with the Rattle source that is
//! named above it, and with `plank.h`.

/// An enum without fields whose cases have the numbers that are written out.
macro_rules! numbered {
    ($(#[$meta:meta])* $vis:vis enum $name:ident { $($case:ident = $number:literal,)* }) => {
        $(#[$meta])*
        #[derive(Debug, Clone, Copy, PartialEq, Eq, Hash)]
        #[repr(u32)]
        $vis enum $name { $($case = $number),* }

        #[allow(dead_code)]
        impl $name {
            /// All cases, in the order of their numbers.
            pub const ALL: &'static [Self] = &[$(Self::$case),*];

            pub const fn number(self) -> u32 {
                self as u32
            }

            pub const fn from_number(number: u32) -> Option<Self> {
                match number {
                    $($number => Some(Self::$case),)*
                    _ => None,
                }
            }
        }
    };
}

// crates/words/src/token.rt
numbered! {
    /// The kinds of a token (`Token` of lexer.rs).
    pub enum Token {
        Semicolon = 0,
        Comma = 1,
        Colon = 2,
        Dot = 3,
        Dollar = 4,
        LeftCurly = 5,
        RightCurly = 6,
        LeftRound = 7,
        RightRound = 8,
        LeftSquare = 9,
        RightSquare = 10,
        DoubleColon = 11,
        FatArrow = 12,
        Equals = 13,
        Plus = 14,
        PlusPercent = 15,
        Minus = 16,
        MinusPercent = 17,
        Star = 18,
        StarPercent = 19,
        Slash = 20,
        PlusSlash = 21,
        MinusSlash = 22,
        LessSlash = 23,
        GreaterSlash = 24,
        Percent = 25,
        DoubleEquals = 26,
        BangEquals = 27,
        LessThan = 28,
        GreaterThan = 29,
        LessEquals = 30,
        GreaterEquals = 31,
        Bang = 32,
        AmperAmper = 33,
        PipePipe = 34,
        Ampersand = 35,
        Pipe = 36,
        Caret = 37,
        Tilde = 38,
        ShiftLeft = 39,
        ShiftRight = 40,
        If = 41,
        Else = 42,
        Fn = 43,
        Eager = 44,
        Let = 45,
        Mut = 46,
        Const = 47,
        Init = 48,
        Run = 49,
        Struct = 50,
        Tuple = 51,
        Return = 52,
        Comptime = 53,
        Inline = 54,
        While = 55,
        True = 56,
        False = 57,
        And = 58,
        Or = 59,
        Pub = 60,
        Use = 61,
        As = 62,
        Match = 63,
        SelfType = 64,
        Identifier = 65,
        BuiltinName = 66,
        DecimalLiteral = 67,
        HexLiteral = 68,
        BinLiteral = 69,
        LooseStringLiteral = 70,
        LooseHexStringLiteral = 71,
        Whitespace = 72,
        LineComment = 73,
        BlockComment = 74,
        AtWithoutIdentError = 75,
        InvalidCharError = 76,
        MalformedIdentError = 77,
        MultilineStringError = 78,
        UnclosedBlockCommentError = 79,
        UnclosedStringError = 80,
        Eof = 81,
    }
}

// crates/words/src/error_token.rt
numbered! {
    /// What a lexer error was (`ErrorToken` of lexer.rs).
    pub enum ErrorToken {
        InvalidChar = 0,
        MalformedIdent = 1,
        MultilineString = 2,
        UnclosedBlockComment = 3,
        UnclosedString = 4,
        AtWithoutIdent = 5,
    }
}

// crates/words/src/node.rt
numbered! {
    /// The kinds of a node, without what its payload tells.
    pub(crate) enum NodeTag {
        File = 0,
        ConstDecl = 1,
        ImportDecl = 2,
        ImportAsDecl = 3,
        ImportGroupDecl = 4,
        ImportGroupItem = 5,
        InitBlock = 6,
        RunBlock = 7,
        ComptimeBlock = 8,
        Block = 9,
        LetStmt = 10,
        ReturnStmt = 11,
        AssignStmt = 12,
        WhileStmt = 13,
        InlineWhileStmt = 14,
        BinaryExpr = 15,
        UnaryExpr = 16,
        ParenExpr = 17,
        CallExpr = 18,
        MemberExpr = 19,
        StructDef = 20,
        StructBody = 21,
        StructLit = 22,
        TupleType = 23,
        TupleLit = 24,
        If = 25,
        ElseIfBranchList = 26,
        ElseIfBranch = 27,
        Match = 28,
        MatchArmList = 29,
        MatchArm = 30,
        MatchFallbackArm = 31,
        BoolLiteral = 32,
        NumLiteral = 33,
        StringLiteral = 34,
        SelfType = 35,
        Identifier = 36,
        BuiltinName = 37,
        FnDef = 38,
        MethodDef = 39,
        ParamList = 40,
        Parameter = 41,
        ComptimeParameter = 42,
        ParamAnyType = 43,
        Operator = 44,
        StatementsList = 45,
        ImportPath = 46,
        FieldDef = 47,
        FieldAssign = 48,
        Error = 49,
    }
}

// crates/words/src/binary_op.rt
numbered! {
    /// `BinaryOp` of cst/mod.rs.
    pub enum BinaryOp {
        Or = 0,
        And = 1,
        DoubleEquals = 2,
        BangEquals = 3,
        LessThan = 4,
        GreaterThan = 5,
        LessEquals = 6,
        GreaterEquals = 7,
        Pipe = 8,
        Caret = 9,
        Ampersand = 10,
        ShiftLeft = 11,
        ShiftRight = 12,
        Plus = 13,
        Minus = 14,
        PlusPercent = 15,
        MinusPercent = 16,
        Star = 17,
        Slash = 18,
        Percent = 19,
        StarPercent = 20,
        PlusSlash = 21,
        MinusSlash = 22,
        LessSlash = 23,
        GreaterSlash = 24,
    }
}

// crates/words/src/unary_op.rt
numbered! {
    /// `UnaryOp` of cst/mod.rs.
    pub enum UnaryOp {
        Minus = 0,
        Bang = 1,
        Tilde = 2,
    }
}

// crates/words/src/value.rt
numbered! {
    /// The tags of a value.
    pub(crate) enum ValueTag {
        Number = 1,
        String = 2,
    }
}

// crates/words/src/report.rt
numbered! {
    /// The kinds of a report, without its detail.
    pub(crate) enum ReportTag {
        LexerError = 1,
        Unexpected = 2,
        MissingToken = 3,
        MissingSpecific = 4,
        BuiltinAsName = 5,
        FieldAfterMethod = 6,
        StarInGroup = 7,
        PathInGroup = 8,
        EmptyGroup = 9,
        NeedlessBraces = 10,
        NonAscii = 11,
        BadHexEscape = 12,
        UnknownEscape = 13,
        NonHexDigit = 14,
        OddDigits = 15,
        BackslashAtEnd = 16,
    }
}

// crates/words/src/refusal.rt
numbered! {
    /// The numbers of the refusals.
    pub(crate) enum RefusalTag {
        NotUtf8Start = 1,
        TooLong = 2,
        TooDeep = 3,
        TokensDontFit = 4,
        NodesDontFit = 5,
        ValuesDontFit = 6,
        ReportsDontFit = 7,
        AlteredNodes = 8,
        NotUtf8Later = 9,
        NotUtf8Cut = 10,
    }
}

/// The flags in the payload of a node, each as the number that it adds (crates/words/src/flag.rt).
pub(crate) mod flag {
    pub const CONST_DECL_TYPED: u32 = 1;
    pub const IMPORT_DECL_PUBLIC: u32 = 2;
    pub const IMPORT_DECL_GLOB: u32 = 1;
    pub const IMPORT_AS_DECL_PUBLIC: u32 = 1;
    pub const IMPORT_GROUP_DECL_PUBLIC: u32 = 1;
    pub const LET_STMT_COMPTIME: u32 = 4;
    pub const LET_STMT_MUTABLE: u32 = 2;
    pub const LET_STMT_TYPED: u32 = 1;
    pub const MATCH_FALLBACK_ARM_BINDING: u32 = 1;
    pub const BOOL_LITERAL_TRUE: u32 = 1;
    pub const FN_DEF_EAGER: u32 = 1;
    pub const METHOD_DEF_EAGER: u32 = 1;
}

// The bits of each word's low part (crates/words/src/lib.rt).
pub(crate) const TOKEN_LOW: u32 = 25;
pub(crate) const NODE_LOW: u32 = 26;
pub(crate) const VALUE_LOW: u32 = 30;
pub(crate) const REPORT_LOW: u32 = 26;

/// The words of one node (crates/words/src/node.rt).
pub const NODE_WIDTH: usize = 6;

/// The words of one report (crates/words/src/report.rt).
pub(crate) const REPORT_WIDTH: usize = 3;

/// The bytes that a text may have (01, "Refusals").
pub const MAX_TEXT: usize = 65_536;

#[cfg(test)]
mod tests;
