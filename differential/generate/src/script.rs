//! Scripts that the wall chart of document 01 derives, with blanks and comments between
//! their tokens.

use crate::{rng::Rng, rows::any_token};

/// A script free of reports.
pub fn script(rng: &mut Rng) -> String {
    Writer { rng, text: String::new(), damage: 0 }.script()
}

/// The same with some of its tokens left out, doubled, or changed for others.
pub fn damaged_script(rng: &mut Rng) -> String {
    let damage = 4 + rng.below(60);
    Writer { rng, text: String::new(), damage }.script()
}

/// May a field list in braces follow an expression?
#[derive(Clone, Copy, PartialEq)]
enum Mode {
    AllowAll,
    NoFieldList,
}

use Mode::{AllowAll, NoFieldList};

const BINARY: [&str; 25] = [
    "or", "and", "==", "!=", "<", ">", "<=", ">=", "|", "^", "&", "<<", ">>", "+", "-", "+%", "-%",
    "*", "/", "%", "*%", "+/", "-/", "</", ">/",
];

const NAMES: [&str; 20] = [
    "a", "b", "plot", "tree_count", "_", "_1", "hex", "hexa", "iff", "Self_", "selfie", "x0",
    "returned", "If", "e", "structure", "az_AZ_09", "comptimes", "inlined", "or_",
];

/// From this length on only operands of one token follow.
const LONG_SCRIPT: usize = 1500;

const TRIVIA: [&str; 12] = [
    " ",
    "  ",
    "\n",
    "\t",
    "\r\n",
    "// a note\n",
    "// one\r two\r\n",
    "//* no block\n",
    "/**/",
    "/* a /* nested */ one * / */",
    "/* é → 木 */",
    "// ü\n\n  ",
];

struct Writer<'r> {
    rng: &'r mut Rng,
    text: String,
    /// One token in so many is damaged; none where it is 0.
    damage: usize,
}

impl Writer<'_> {
    fn script(mut self) -> String {
        self.trivia();
        for _ in 0..self.rng.below(5) {
            self.declaration();
        }
        self.text
    }

    fn token(&mut self, spelling: &str) {
        if self.damage == 0 || !self.rng.chance(1, self.damage) {
            return self.spell(spelling);
        }
        let other = any_token(self.rng);
        let spellings: &[&str] = match self.rng.below(4) {
            0 => &[],
            1 => &[spelling, spelling],
            2 => &[other],
            _ => &[other, spelling],
        };
        for spelling in spellings {
            self.spell(spelling);
        }
    }

    fn spell(&mut self, spelling: &str) {
        if self.would_join(spelling) {
            self.text.push(' ');
        }
        self.text.push_str(spelling);
        self.trivia();
    }

    fn tokens(&mut self, spellings: &[&str]) {
        for spelling in spellings {
            self.token(spelling);
        }
    }

    fn trivia(&mut self) {
        while self.rng.chance(2, 5) {
            let trivia = self.rng.pick(&TRIVIA);
            if self.would_join(trivia) {
                self.text.push(' ');
            }
            self.text.push_str(trivia);
        }
    }

    /// Would the spelling be read as one token with what stands before it?
    fn would_join(&self, spelling: &str) -> bool {
        let (Some(last), Some(first)) = (self.text.chars().last(), spelling.chars().next()) else {
            return false;
        };
        let is_word = |c: char| c.is_ascii_alphanumeric() || c == '_';
        let is_operator = |c: char| "+-*/%=<>!&|:".contains(c);
        is_word(last) && (is_word(first) || first == '"') || is_operator(last) && is_operator(first)
    }

    fn maybe(&mut self) -> bool {
        self.rng.chance(1, 2)
    }

    /// Items with commas between; the comma after the last is free.
    fn list(&mut self, least: usize, most: usize, mut item: impl FnMut(&mut Self)) {
        let count = least + self.rng.below(most - least + 1);
        for left in (0..count).rev() {
            item(self);
            if left > 0 || self.maybe() {
                self.token(",");
            }
        }
    }

    fn name(&mut self) {
        let name = self.rng.pick(&NAMES);
        self.token(name);
    }

    // Declarations

    fn declaration(&mut self) {
        match self.rng.below(5) {
            0 => self.token("init"),
            1 => self.token("run"),
            2 => return self.import(),
            _ => return self.constant(),
        }
        self.block(4);
    }

    fn constant(&mut self) {
        self.token("const");
        self.name();
        if self.maybe() {
            self.token(":");
            self.expression(AllowAll, 2);
        }
        self.token("=");
        self.expression(AllowAll, 5);
        self.token(";");
    }

    fn import(&mut self) {
        if self.maybe() {
            self.token("pub");
        }
        self.token("use");
        self.name();
        while self.maybe() {
            self.token("::");
            self.name();
        }
        match self.rng.below(4) {
            0 => self.tokens(&["::", "*"]),
            1 => self.import_group(),
            2 => self.alias(),
            _ => {}
        }
        self.token(";");
    }

    fn alias(&mut self) {
        self.token("as");
        self.name();
    }

    fn import_group(&mut self) {
        self.tokens(&["::", "{"]);
        self.list(2, 4, |writer| {
            writer.name();
            if writer.maybe() {
                writer.alias();
            }
        });
        self.token("}");
    }

    // Statements

    fn block(&mut self, room: usize) {
        let room = room.saturating_sub(1);
        self.token("{");
        for _ in 0..self.rng.below(3) {
            self.statement(room);
        }
        if self.maybe() {
            self.expression_not_from("comptime", AllowAll, room);
        }
        self.token("}");
    }

    fn statement(&mut self, room: usize) {
        match self.rng.below(8) {
            0 => return self.while_loop(room),
            1 => return self.comptime_block(room),
            2 => self.binding(room),
            3 => {
                self.token("return");
                self.expression(AllowAll, room);
            }
            4 => {
                self.name();
                self.token("=");
                self.expression(AllowAll, room);
            }
            5 => {
                self.braced_operand(room);
                self.binding(room);
            }
            _ => self.expression_not_from("comptime", AllowAll, room),
        }
        self.token(";");
    }

    fn while_loop(&mut self, room: usize) {
        if self.maybe() {
            self.token("inline");
        }
        self.token("while");
        self.expression(NoFieldList, room);
        self.block(room);
    }

    fn comptime_block(&mut self, room: usize) {
        self.token("comptime");
        self.block(room);
        if self.maybe() {
            self.token(";");
        }
    }

    fn binding(&mut self, room: usize) {
        if self.maybe() {
            self.token("comptime");
        }
        self.token("let");
        if self.maybe() {
            self.token("mut");
        }
        self.name();
        if self.maybe() {
            self.token(":");
            self.expression(AllowAll, room);
        }
        self.token("=");
        self.expression(AllowAll, room);
    }

    // Expressions

    fn expression(&mut self, mode: Mode, room: usize) {
        self.operand(mode, room);
        while room > 0 && self.rng.chance(1, 3) {
            let operator = self.rng.pick(&BINARY);
            self.token(operator);
            self.operand(mode, room - 1);
        }
    }

    /// An expression whose spelling doesn't begin with `start`.
    fn expression_not_from(&mut self, start: &str, mode: Mode, room: usize) {
        let before = self.text.len();
        self.expression(mode, room);
        if self.text[before..].trim_start().starts_with(start) {
            self.text.truncate(before);
            self.name();
        }
    }

    fn operand(&mut self, mode: Mode, room: usize) {
        while self.rng.chance(1, 6) {
            let prefix = self.rng.pick(&["-", "!", "~"]);
            self.token(prefix);
        }
        if room == 0 || self.text.len() > LONG_SCRIPT || self.maybe() {
            return self.atom();
        }
        self.compound_operand(room - 1);
        while self.rng.chance(1, 3) {
            self.postfix(mode, room - 1);
        }
    }

    fn postfix(&mut self, mode: Mode, room: usize) {
        match self.rng.below(3) {
            0 => {
                self.token(".");
                self.name();
            }
            1 if mode == AllowAll => self.field_list(room),
            _ => {
                self.token("(");
                self.list(0, 3, |writer| writer.expression(AllowAll, room));
                self.token(")");
            }
        }
    }

    fn field_list(&mut self, room: usize) {
        self.token("{");
        self.list(0, 3, |writer| {
            writer.name();
            writer.token(":");
            writer.expression(AllowAll, room);
        });
        self.token("}");
    }

    fn compound_operand(&mut self, room: usize) {
        match self.rng.below(9) {
            0 => {
                self.token("(");
                self.expression(AllowAll, room);
                self.token(")");
            }
            1 => self.tuple(room),
            2 => self.comptime_expression(room),
            3 => self.function(room),
            4 => self.structure(room),
            5 => self.tuple_type(room),
            6 | 7 => self.braced_operand(room),
            _ => self.atom(),
        }
    }

    fn comptime_expression(&mut self, room: usize) {
        self.token("comptime");
        self.block(room);
    }

    fn tuple(&mut self, room: usize) {
        self.token("(");
        if self.maybe() {
            self.expression(AllowAll, room);
            self.token(",");
            self.list(0, 2, |writer| writer.expression(AllowAll, room));
        }
        self.token(")");
    }

    fn tuple_type(&mut self, room: usize) {
        self.tokens(&["tuple", "{"]);
        self.list(0, 3, |writer| writer.expression(AllowAll, room));
        self.token("}");
    }

    fn function(&mut self, room: usize) {
        if self.maybe() {
            self.token("eager");
        }
        self.token("fn");
        self.signature_and_body(room);
    }

    fn signature_and_body(&mut self, room: usize) {
        self.token("(");
        self.list(0, 3, |writer| writer.parameter(room));
        self.token(")");
        self.expression(NoFieldList, room);
        self.block(room);
    }

    fn parameter(&mut self, room: usize) {
        if self.maybe() {
            self.token("comptime");
        }
        self.name();
        self.token(":");
        if self.maybe() {
            self.token("$");
            self.name();
        } else {
            self.expression(AllowAll, room);
        }
    }

    fn structure(&mut self, room: usize) {
        self.token("struct");
        if self.maybe() {
            self.expression_not_from("{", NoFieldList, room);
        }
        self.token("{");
        self.list(0, 3, |writer| {
            writer.name();
            writer.token(":");
            writer.expression(AllowAll, room);
        });
        while self.rng.chance(1, 3) {
            self.method(room);
        }
        self.token("}");
    }

    fn method(&mut self, room: usize) {
        if self.maybe() {
            self.token("eager");
        }
        self.token("fn");
        self.name();
        self.signature_and_body(room);
    }

    /// A block, an `if` or a `match`: they need no `;` after them.
    fn braced_operand(&mut self, room: usize) {
        match self.rng.below(3) {
            0 => self.block(room),
            1 => self.conditional(room),
            _ => self.choice(room),
        }
    }

    fn conditional(&mut self, room: usize) {
        self.token("if");
        self.expression(NoFieldList, room);
        self.block(room);
        while self.rng.chance(1, 3) {
            self.tokens(&["else", "if"]);
            self.expression(NoFieldList, room);
            self.block(room);
        }
        if self.maybe() {
            self.token("else");
            self.block(room);
        }
    }

    fn choice(&mut self, room: usize) {
        self.token("match");
        self.expression(NoFieldList, room);
        self.token("{");
        self.list(0, 3, |writer| {
            if writer.rng.chance(1, 3) {
                writer.token("else");
                if writer.maybe() {
                    writer.name();
                }
            } else {
                writer.expression(AllowAll, room);
            }
            writer.token("=>");
            writer.expression(AllowAll, room);
        });
        self.token("}");
    }

    // Operands of one token, or of neighbouring strings

    fn atom(&mut self) {
        match self.rng.below(8) {
            0 => self.token("true"),
            1 => self.token("false"),
            2 => self.token("Self"),
            3 => self.number(),
            4 => self.strings(),
            5 => {
                let name = self.rng.pick(&NAMES);
                self.token(&format!("@{name}"));
            }
            _ => self.name(),
        }
    }

    fn number(&mut self) {
        let (prefix, digits) = match self.rng.below(3) {
            0 => ("", "0123456789"),
            1 => ("0x", "0123456789abcdefABCDEF"),
            _ => ("0b", "01"),
        };
        let mut number = format!("{prefix}{}", self.run_of(digits, 1));
        let count = self.rng.below(20);
        number.push_str(&self.run_of(&format!("{digits}_"), count));
        self.token(&number);
    }

    fn strings(&mut self) {
        self.string();
        while self.rng.chance(1, 3) {
            self.string();
        }
    }

    fn string(&mut self) {
        let pieces = self.rng.below(6);
        if self.maybe() {
            let digits = self.run_of("0123456789abcdefABCDEF", 2 * pieces);
            return self.token(&format!("hex\"{digits}\""));
        }
        let mut body = String::new();
        for _ in 0..pieces {
            body.push_str(self.rng.pick(&[
                "a", "Z", " ", "//", "/*", "hex", "\\n", "\\r", "\\t", "\\0", "\\\\", "\\\"",
                "\\x00", "\\xfF", "\\x41",
            ]));
        }
        self.token(&format!("\"{body}\""));
    }

    fn run_of(&mut self, digits: &str, count: usize) -> String {
        let digits: Vec<char> = digits.chars().collect();
        (0..count).map(|_| self.rng.pick_char(&digits)).collect()
    }
}
