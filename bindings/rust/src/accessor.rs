//! The numbers of the accessors, for the views of [`raw`](crate::raw), as
//! crates/accessors/src/number.rt has them (a unit test compares). Those named `.._SPAN` are for
//! [`raw::span`](crate::raw::span), those named `.._COUNT` for [`raw::count`](crate::raw::count),
//! all others for [`raw::number`](crate::raw::number).

// Any node, which node an expression is, and where a node stands.
pub const KIND: u32 = 0;
pub const SPAN: u32 = 1;
pub const CHILD: u32 = 2;
pub const CHILD_COUNT: u32 = 3;
pub const IDENT: u32 = 4;
pub const EXPR: u32 = 5;
pub const STRUCT_BODY: u32 = 6;
pub const PARENT: u32 = 7;
pub const ENCLOSING_DECLARATION: u32 = 8;
/// Its `i` is a token number.
pub const NODE_AT_TOKEN: u32 = 9;

// Files, constants and imports.
pub const FILE: u32 = 32;
pub const FILE_DEF: u32 = 33;
pub const FILE_DEF_COUNT: u32 = 34;
pub const INIT_BLOCK: u32 = 35;
pub const RUN_BLOCK: u32 = 36;
pub const CONST_DECL_NAME: u32 = 37;
pub const CONST_DECL_NAME_SPAN: u32 = 38;
pub const CONST_DECL_TYPE: u32 = 39;
pub const CONST_DECL_ASSIGN: u32 = 40;
pub const CONST_DECL_SPAN: u32 = 41;
pub const IMPORT_PATH: u32 = 42;
pub const IMPORT_PUBLIC: u32 = 43;
pub const IMPORT_GLOB: u32 = 44;
pub const IMPORT_AS_DECL_NAME: u32 = 45;
pub const IMPORT_PATH_SEGMENT: u32 = 46;
pub const IMPORT_PATH_SEGMENT_COUNT: u32 = 47;
pub const IMPORT_FIRST_PATH_SEGMENT_SPAN: u32 = 48;
pub const IMPORT_LAST_PATH_SEGMENT_SPAN: u32 = 49;
pub const IMPORT_FILE_PATH_SPAN: u32 = 50;
pub const IMPORT_GROUP_PUBLIC: u32 = 51;
pub const IMPORT_GROUP_PATH_SEGMENT: u32 = 52;
pub const IMPORT_GROUP_PATH_SEGMENT_COUNT: u32 = 53;
pub const IMPORT_GROUP_FIRST_PATH_SEGMENT_SPAN: u32 = 54;
pub const IMPORT_GROUP_FILE_PATH_SPAN: u32 = 55;
pub const IMPORT_GROUP_ITEM: u32 = 56;
pub const IMPORT_GROUP_ITEM_COUNT: u32 = 57;
pub const IMPORT_GROUP_ITEM_NAME: u32 = 58;
pub const IMPORT_GROUP_ITEM_NAME_SPAN: u32 = 59;
pub const IMPORT_GROUP_ITEM_ALIAS: u32 = 60;
pub const IMPORT_GROUP_ITEM_SPAN: u32 = 61;

// Blocks and statements.
pub const BLOCK: u32 = 64;
pub const BLOCK_STATEMENT: u32 = 65;
pub const BLOCK_STATEMENT_COUNT: u32 = 66;
pub const BLOCK_END_EXPR: u32 = 67;
pub const LET_STMT_NAME: u32 = 68;
pub const LET_STMT_NAME_SPAN: u32 = 69;
pub const LET_STMT_COMPTIME: u32 = 70;
pub const LET_STMT_MUTABLE: u32 = 71;
pub const LET_STMT_SPAN: u32 = 72;
pub const LET_STMT_TYPE_EXPR: u32 = 73;
pub const LET_STMT_VALUE: u32 = 74;
pub const LET_STMT: u32 = 75;
pub const RETURN_STMT_VALUE: u32 = 76;
pub const ASSIGN_STMT_TARGET: u32 = 77;
pub const ASSIGN_STMT_VALUE: u32 = 78;
pub const WHILE_STMT_INLINE: u32 = 79;
pub const WHILE_STMT_CONDITION: u32 = 80;
pub const WHILE_STMT_BODY: u32 = 81;
pub const WHILE_STMT: u32 = 82;
pub const STATEMENT: u32 = 83;

// Functions, methods and parameters.
pub const FN_DEF_EAGER: u32 = 96;
pub const FN_DEF_PARAM_LIST_SPAN: u32 = 97;
pub const FN_DEF_PARAM: u32 = 98;
pub const FN_DEF_PARAM_COUNT: u32 = 99;
pub const FN_DEF_RETURN_TYPE: u32 = 100;
pub const FN_DEF_BODY: u32 = 101;
pub const METHOD_DEF_EAGER: u32 = 102;
pub const METHOD_DEF_NAME: u32 = 103;
pub const METHOD_DEF_NAME_SPAN: u32 = 104;
pub const METHOD_DEF_PARAM_LIST_SPAN: u32 = 105;
pub const METHOD_DEF_PARAM: u32 = 106;
pub const METHOD_DEF_PARAM_COUNT: u32 = 107;
pub const METHOD_DEF_RETURN_TYPE: u32 = 108;
pub const METHOD_DEF_BODY: u32 = 109;
pub const PARAM_NAME: u32 = 110;
pub const PARAM_NAME_SPAN: u32 = 111;
pub const PARAM_IS_COMPTIME: u32 = 112;
pub const PARAM_TYPE_EXPLICIT: u32 = 113;
pub const PARAM_TYPE_ANY: u32 = 114;
pub const PARAM_TYPE_ANY_SPAN: u32 = 115;

// Operators, calls, members and literals.
pub const BINARY_EXPR_OP: u32 = 128;
pub const BINARY_EXPR_LHS: u32 = 129;
pub const BINARY_EXPR_OP_SPAN: u32 = 130;
pub const BINARY_EXPR_RHS: u32 = 131;
pub const UNARY_EXPR_OP: u32 = 132;
pub const UNARY_EXPR_OPERAND: u32 = 133;
pub const CALL_EXPR_CALLEE: u32 = 134;
pub const CALL_EXPR_ARG: u32 = 135;
pub const CALL_EXPR_ARG_COUNT: u32 = 136;
pub const CALL_EXPR_DIRECT_MEMBER_CALLEE: u32 = 137;
pub const MEMBER_EXPR_OBJECT: u32 = 138;
pub const MEMBER_EXPR_MEMBER: u32 = 139;
pub const MEMBER_EXPR: u32 = 140;
pub const BOOL_LITERAL_VALUE: u32 = 141;
pub const NUM_LITERAL_ID: u32 = 142;
pub const STRING_LITERAL_VALUE: u32 = 143;
pub const SELF_TYPE: u32 = 144;
pub const BUILTIN_NAME: u32 = 145;

// Structs, their literals, and tuples.
pub const STRUCT_DEF_INDEX_EXPR: u32 = 160;
pub const STRUCT_DEF_FIELD: u32 = 161;
pub const STRUCT_DEF_FIELD_COUNT: u32 = 162;
pub const STRUCT_DEF_METHOD: u32 = 163;
pub const STRUCT_DEF_METHOD_COUNT: u32 = 164;
pub const FIELD_DEF_NAME: u32 = 165;
pub const FIELD_DEF_NAME_SPAN: u32 = 166;
pub const FIELD_DEF_TYPE_EXPR: u32 = 167;
pub const STRUCT_LIT_TYPE_EXPR: u32 = 168;
pub const STRUCT_LIT_FIELD: u32 = 169;
pub const STRUCT_LIT_FIELD_COUNT: u32 = 170;
pub const FIELD_ASSIGN_NAME: u32 = 171;
pub const FIELD_ASSIGN_NAME_SPAN: u32 = 172;
pub const FIELD_ASSIGN_VALUE: u32 = 173;
pub const TUPLE_TYPE_FIELD: u32 = 174;
pub const TUPLE_TYPE_FIELD_COUNT: u32 = 175;
pub const TUPLE_LIT_FIELD: u32 = 176;
pub const TUPLE_LIT_FIELD_COUNT: u32 = 177;

// `if` and `match`.
pub const IF_EXPR_CONDITION: u32 = 192;
pub const IF_EXPR_BODY: u32 = 193;
pub const IF_EXPR_ELSE_IF_BRANCH: u32 = 194;
pub const IF_EXPR_ELSE_IF_BRANCH_COUNT: u32 = 195;
pub const IF_EXPR_ELSE_BODY: u32 = 196;
pub const ELSE_IF_BRANCH_CONDITION: u32 = 197;
pub const ELSE_IF_BRANCH_BODY: u32 = 198;
pub const MATCH_EXPR_SUBJECT: u32 = 199;
pub const MATCH_EXPR_ARM: u32 = 200;
pub const MATCH_EXPR_ARM_COUNT: u32 = 201;
pub const MATCH_ARM_KEY: u32 = 202;
pub const MATCH_ARM_BODY: u32 = 203;
pub const MATCH_FALLBACK_ARM_BOUND: u32 = 204;
pub const MATCH_FALLBACK_ARM_BINDING: u32 = 205;
pub const MATCH_FALLBACK_ARM_BINDING_SPAN: u32 = 206;
pub const MATCH_FALLBACK_ARM_BODY: u32 = 207;
