//! rico's syntax tree as document 01's records, a node's with the tenth number of Change 7.

use crate::tokens::places;
use rico::ast::*;

pub const NODE_WIDTH: usize = 10;
pub const COMMENT_WIDTH: usize = 9;

/// Kind, parent, flags, then index, line and column of start and end.
pub type CommentRecord = [u32; COMMENT_WIDTH];

/// The same, then the record number just past the last descendant.
pub type NodeRecord = [u32; NODE_WIDTH];

pub const NO_PARENT: u32 = u32::MAX;

#[derive(Default)]
pub struct Tables {
    pub nodes: Vec<NodeRecord>,
    /// In text order, each with its owner as parent.
    pub comments: Vec<CommentRecord>,
}

pub fn flatten(document: &Document) -> Tables {
    let mut tables = Tables::default();
    for member in &document.members {
        tables.definition(member);
    }
    tables.comments.sort_by_key(|c| c[3]);
    tables
}

fn record(kind: u32, parent: u32, flags: u32, loc: &LOC) -> CommentRecord {
    let [a, b, c, d, e, f] = places(&loc.start, &loc.end);
    [kind, parent, flags, a, b, c, d, e, f]
}

impl Tables {
    /// A node and all that is below it in rico's tree: `below` lays that, given the node's number.
    fn node(&mut self, kind: u32, parent: u32, flags: u32, loc: &LOC, below: impl FnOnce(&mut Tables, u32)) {
        let me = self.nodes.len();
        let [a, b, c, d, e, f, g, h, i] = record(kind, parent, flags, loc);
        self.nodes.push([a, b, c, d, e, f, g, h, i, 0]);
        below(self, me as u32);
        self.nodes[me][9] = self.nodes.len() as u32;
    }

    /// A node that has nothing below it.
    fn leaf(&mut self, kind: u32, parent: u32, loc: &LOC) {
        self.node(kind, parent, 0, loc, |_, _| {});
    }

    fn owned(&mut self, owner: u32, comments: &[Comment]) {
        for c in comments {
            let kind = match c.kind {
                NodeType::CommentLine => 32,
                NodeType::CommentBlock => 33,
                other => panic!("comment of kind {other:?}"),
            };
            self.comments.push(record(kind, owner, 0, &c.loc));
        }
    }

    fn name(&mut self, parent: u32, name: &Common<String>) {
        self.leaf(16, parent, &name.loc);
    }

    fn definition(&mut self, member: &DocumentMembers) {
        match member {
            DocumentMembers::Include(x) => self.node(1, NO_PARENT, 0, &x.loc, |tables, me| {
                tables.owned(me, &x.comments);
                tables.name(me, &x.name);
            }),
            DocumentMembers::CppInclude(x) => self.node(2, NO_PARENT, 0, &x.loc, |tables, me| {
                tables.owned(me, &x.comments);
                tables.name(me, &x.name);
            }),
            DocumentMembers::Namespace(x) => self.node(3, NO_PARENT, 0, &x.loc, |tables, me| {
                tables.owned(me, &x.comments);
                tables.name(me, &x.scope);
                tables.name(me, &x.name);
            }),
            DocumentMembers::Const(x) => self.node(4, NO_PARENT, 0, &x.loc, |tables, me| {
                tables.owned(me, &x.comments);
                tables.field_type(me, &x.field_type);
                tables.name(me, &x.name);
                tables.value(me, &x.value);
            }),
            DocumentMembers::Typedef(x) => self.node(5, NO_PARENT, 0, &x.loc, |tables, me| {
                tables.owned(me, &x.comments);
                tables.field_type(me, &x.field_type);
                tables.name(me, &x.name);
            }),
            DocumentMembers::Enum(x) => self.node(6, NO_PARENT, 0, &x.loc, |tables, me| {
                tables.owned(me, &x.comments);
                tables.name(me, &x.name);
                for m in &x.members {
                    tables.enum_member(me, m);
                }
                tables.annotations(me, &x.annotations);
            }),
            DocumentMembers::Struct(x) => self.fields(7, &x.loc, &x.name, &x.members, &x.comments, &x.annotations),
            DocumentMembers::Union(x) => self.fields(8, &x.loc, &x.name, &x.members, &x.comments, &x.annotations),
            DocumentMembers::Exception(x) => self.fields(9, &x.loc, &x.name, &x.members, &x.comments, &x.annotations),
            DocumentMembers::Service(x) => self.node(10, NO_PARENT, 0, &x.loc, |tables, me| {
                tables.owned(me, &x.comments);
                tables.name(me, &x.name);
                if let Some(extends) = &x.extends {
                    tables.name(me, extends);
                }
                for f in &x.members {
                    tables.function(me, f);
                }
                tables.annotations(me, &x.annotations);
            }),
        }
    }

    fn fields(
        &mut self,
        kind: u32,
        loc: &LOC,
        name: &Common<String>,
        members: &[Field],
        comments: &[Comment],
        annotations: &Option<Annotations>,
    ) {
        self.node(kind, NO_PARENT, 0, loc, |tables, me| {
            tables.owned(me, comments);
            tables.name(me, name);
            for f in members {
                tables.field(me, f, 0);
            }
            tables.annotations(me, annotations);
        });
    }

    fn function(&mut self, parent: u32, f: &Function) {
        let flags = if f.oneway { 4 } else { 0 } + if f.throws.is_some() { 8 } else { 0 };
        self.node(11, parent, flags, &f.loc, |tables, me| {
            tables.owned(me, &f.comments);
            tables.field_type(me, &f.return_type);
            tables.name(me, &f.name);
            for p in &f.params {
                tables.field(me, p, 0);
            }
            for t in f.throws.iter().flatten() {
                tables.field(me, t, 16);
            }
            tables.annotations(me, &f.annotations);
        });
    }

    fn field(&mut self, parent: u32, f: &Field, thrown: u32) {
        let flags = thrown
            + match f.required_type.as_str() {
                "required" => 1,
                "optional" => 2,
                _ => 0,
            };
        self.node(12, parent, flags, &f.loc, |tables, me| {
            tables.owned(me, &f.comments);
            if let Some(id) = &f.field_id {
                tables.leaf(17, me, &id.loc);
            }
            tables.field_type(me, &f.field_type);
            tables.name(me, &f.name);
            if let Some(v) = &f.default_value {
                tables.value(me, v);
            }
            tables.annotations(me, &f.annotations);
        });
    }

    fn enum_member(&mut self, parent: u32, m: &EnumMember) {
        self.node(13, parent, 0, &m.loc, |tables, me| {
            tables.owned(me, &m.comments);
            tables.name(me, &m.name);
            if let Some(i) = &m.initializer {
                tables.constant(me, &i.value);
            }
            tables.annotations(me, &m.annotations);
        });
    }

    fn annotations(&mut self, parent: u32, annotations: &Option<Annotations>) {
        if let Some(a) = annotations {
            self.node(14, parent, 0, &a.loc, |tables, me| {
                for x in &a.members {
                    tables.node(15, me, 0, &x.loc, |tables, one| {
                        tables.name(one, &x.name);
                        tables.constant(one, &x.value);
                    });
                }
            });
        }
    }

    fn field_type(&mut self, parent: u32, t: &FieldType) {
        match t {
            FieldType::CommonType(c) => {
                let kind = if c.kind == NodeType::Identifier { 19 } else { 18 };
                self.leaf(kind, parent, &c.loc);
            }
            FieldType::ListType(x) => self.node(20, parent, 0, &x.loc, |tables, me| tables.field_type(me, &x.value_type)),
            FieldType::SetType(x) => self.node(21, parent, 0, &x.loc, |tables, me| tables.field_type(me, &x.value_type)),
            FieldType::MapType(x) => self.node(22, parent, 0, &x.loc, |tables, me| {
                tables.field_type(me, &x.key_type);
                tables.field_type(me, &x.value_type);
            }),
        }
    }

    fn constant(&mut self, parent: u32, c: &Common<String>) {
        let kind = match c.kind {
            NodeType::StringLiteral => 23,
            NodeType::IntegerLiteral => 24,
            NodeType::FloatLiteral => 25,
            NodeType::BooleanLiteral => 26,
            NodeType::HexLiteral => 27,
            NodeType::Identifier => 28,
            other => panic!("value of kind {other:?}"),
        };
        self.leaf(kind, parent, &c.loc);
    }

    fn value(&mut self, parent: u32, v: &FieldInitialValue) {
        match v {
            FieldInitialValue::ConstValue(c) => self.constant(parent, c),
            FieldInitialValue::ConstList(x) => self.node(29, parent, 0, &x.loc, |tables, me| {
                for e in &x.elements {
                    tables.value(me, e);
                }
            }),
            FieldInitialValue::ConstMap(x) => self.node(30, parent, 0, &x.loc, |tables, me| {
                for p in &x.properties {
                    tables.node(31, me, 0, &p.loc, |tables, one| {
                        tables.value(one, &p.name);
                        tables.value(one, &p.value);
                    });
                }
            }),
        }
    }
}
