//! The names of the numbers (docs/FORMAT.md says what each means). Written by tools/numbers.py; do not edit.

/// The kinds of record.
pub mod kind {
    pub const INCLUDE: u32 = 1;
    pub const CPP_INCLUDE: u32 = 2;
    pub const NAMESPACE: u32 = 3;
    pub const CONST: u32 = 4;
    pub const TYPEDEF: u32 = 5;
    pub const ENUM: u32 = 6;
    pub const STRUCT: u32 = 7;
    pub const UNION: u32 = 8;
    pub const EXCEPTION: u32 = 9;
    pub const SERVICE: u32 = 10;
    pub const FUNCTION: u32 = 11;
    pub const FIELD: u32 = 12;
    pub const ENUM_MEMBER: u32 = 13;
    pub const ANNOTATIONS: u32 = 14;
    pub const ANNOTATION: u32 = 15;
    pub const NAME: u32 = 16;
    pub const FIELD_ID: u32 = 17;
    pub const KEYWORD_TYPE: u32 = 18;
    pub const NAMED_TYPE: u32 = 19;
    pub const LIST: u32 = 20;
    pub const SET: u32 = 21;
    pub const MAP: u32 = 22;
    pub const STRING: u32 = 23;
    pub const INTEGER: u32 = 24;
    pub const DOUBLE: u32 = 25;
    pub const BOOLEAN: u32 = 26;
    pub const HEX: u32 = 27;
    pub const NAME_VALUE: u32 = 28;
    pub const LIST_VALUE: u32 = 29;
    pub const MAP_VALUE: u32 = 30;
    pub const PROPERTY: u32 = 31;
    pub const LINE_COMMENT: u32 = 32;
    pub const BLOCK_COMMENT: u32 = 33;
}

/// The flags of a record; they add up.
pub mod flag {
    pub const REQUIRED: u32 = 1;
    pub const OPTIONAL: u32 = 2;
    pub const ONEWAY: u32 = 4;
    pub const THROWS: u32 = 8;
    pub const THROWN: u32 = 16;
}

/// The refusals.
pub mod refusal {
    pub const UNRECOGNIZED_TOKEN: u32 = 1;
    pub const UNEXPECTED_TOKEN: u32 = 2;
    pub const UNEXPECTED_EOF: u32 = 3;
    pub const UNSUPPORTED_TYPE: u32 = 4;
    pub const INVALID_VALUE_DECLARATION: u32 = 6;
    pub const INVALID_FIELD_NAME: u32 = 8;
    pub const INVALID_FIELD_ID: u32 = 9;
    pub const MISSING_NAMESPACE_IDENTIFIER: u32 = 10;
    pub const MISSING_NAMESPACE_SCOPE: u32 = 11;
    pub const MISSING_INCLUDE_IDENTIFIER: u32 = 12;
    pub const MISSING_CONST_IDENTIFIER: u32 = 13;
    pub const MISSING_TYPEDEF_IDENTIFIER: u32 = 14;
    pub const MISSING_ENUM_IDENTIFIER: u32 = 15;
    pub const MISSING_STRUCT_IDENTIFIER: u32 = 16;
    pub const MISSING_SERVICE_IDENTIFIER: u32 = 17;
    pub const MISSING_SERVICE_EXTENDS: u32 = 18;
    pub const INVALID_ENUM_MEMBER_NAME: u32 = 19;
    pub const TEXT_TOO_LONG: u32 = 20;
    pub const NOT_UTF8: u32 = 21;
    pub const NO_TOKEN: u32 = 22;
    pub const TOO_DEEP: u32 = 23;
    pub const NODES_FULL: u32 = 24;
    pub const COMMENTS_FULL: u32 = 25;
    pub const INDENT_TOO_WIDE: u32 = 26;
    pub const OUTPUT_FULL: u32 = 27;
    pub const ENUM_NUMBER_OUTSIDE: u32 = 28;
    pub const NOT_MOVABLE: u32 = 33;
}
