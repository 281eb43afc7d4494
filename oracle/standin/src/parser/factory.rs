// STAND-IN for rico's parser/factory.rs, which is not among its given files.
// Each function puts what it is given into the syntax tree's node of its name, unchanged.
// The kind of a node is NodeType::from_token of rico where a token is given.

// Not a stand-in: the oracle's access to what rico keeps private.
mod probe;

use crate::ast::*;
use crate::lexer::Token;

fn common(kind: NodeType, loc: LOC, value: &str) -> Common<String> {
    Common::new(kind, value.to_string(), loc)
}

pub(crate) fn create_identifier(loc: LOC, value: String) -> Common<String> {
    Common::new(NodeType::Identifier, value, loc)
}

pub(crate) fn create_void(loc: LOC, value: String) -> Common<String> {
    Common::new(NodeType::VoidKeyword, value, loc)
}

pub(crate) fn create_field_id(loc: LOC, value: String) -> Common<String> {
    Common::new(NodeType::FieldID, value, loc)
}

pub(crate) fn create_keyword_field_type(token: &Token, loc: LOC, value: &str) -> FieldType {
    FieldType::CommonType(common(NodeType::from_token(token).unwrap(), loc, value))
}

pub(crate) fn create_identifier_field_type(loc: LOC, value: &str) -> FieldType {
    FieldType::CommonType(common(NodeType::Identifier, loc, value))
}

pub(crate) fn create_list_field_type(loc: LOC, value: &str, value_type: FieldType) -> FieldType {
    FieldType::ListType(FieldListType { loc, value: value.to_string(), value_type: Box::new(value_type) })
}

pub(crate) fn create_set_field_type(loc: LOC, value: &str, value_type: FieldType) -> FieldType {
    FieldType::SetType(FieldSetType { loc, value: value.to_string(), value_type: Box::new(value_type) })
}

pub(crate) fn create_map_field_type(loc: LOC, value: &str, key_type: FieldType, value_type: FieldType) -> FieldType {
    FieldType::MapType(FieldMapType {
        loc,
        value: value.to_string(),
        value_type: Box::new(value_type),
        key_type: Box::new(key_type),
    })
}

pub(crate) fn create_const_value(token: &Token, loc: LOC, value: &str) -> FieldInitialValue {
    FieldInitialValue::ConstValue(common(NodeType::from_token(token).unwrap(), loc, value))
}

pub(crate) fn create_identifier_value(loc: LOC, value: &str) -> FieldInitialValue {
    FieldInitialValue::ConstValue(common(NodeType::Identifier, loc, value))
}

pub(crate) fn create_const_list_value(loc: LOC, elements: Vec<FieldInitialValue>) -> FieldInitialValue {
    FieldInitialValue::ConstList(ConstList { loc, elements })
}

pub(crate) fn create_map_value(loc: LOC, properties: Vec<MapProperty>) -> FieldInitialValue {
    FieldInitialValue::ConstMap(ConstMap { loc, properties })
}

pub(crate) fn create_initializer(loc: LOC, value: Common<String>, kind: NodeType) -> Initializer {
    Initializer { kind, value, loc }
}

pub(crate) fn create_enum_member(
    loc: LOC,
    name: Common<String>,
    initializer: Option<Initializer>,
    comments: Vec<Comment>,
    annotations: Option<Annotations>,
) -> EnumMember {
    EnumMember { loc, name, initializer, comments, annotations }
}
