// STAND-IN for rico's writer/mod.rs, which is not among its given files: the indent of a level,
// and the whole file as document 01 sets it (definitions one after another, nothing between).
mod common;
mod document;
mod types;
mod values;

use crate::ast::*;

pub struct Writer {
    level: usize,
    unit: usize,
}

impl Writer {
    /// A writer that indents each level by `unit` spaces.
    pub fn new(unit: usize) -> Self {
        Writer { level: 0, unit }
    }

    pub(crate) fn indent(&mut self) {
        self.level += 1;
    }

    pub(crate) fn dedent(&mut self) {
        self.level -= 1;
    }

    pub(crate) fn write_indent(&mut self, output: &mut String) {
        for _ in 0..self.level * self.unit {
            output.push(' ');
        }
    }

    pub fn write(&mut self, document: &Document) -> String {
        let mut output = String::new();
        for member in &document.members {
            match member {
                DocumentMembers::Namespace(x) => self.write_namespace(&mut output, x),
                DocumentMembers::Include(x) => self.write_include(&mut output, x),
                DocumentMembers::CppInclude(x) => self.write_cpp_include(&mut output, x),
                DocumentMembers::Const(x) => self.write_const(&mut output, x),
                DocumentMembers::Typedef(x) => self.write_typedef(&mut output, x),
                DocumentMembers::Enum(x) => self.write_enum(&mut output, x),
                DocumentMembers::Struct(x) => self.write_struct(&mut output, x),
                DocumentMembers::Service(x) => self.write_service(&mut output, x),
                DocumentMembers::Exception(x) => self.write_exception(&mut output, x),
                DocumentMembers::Union(x) => self.write_union(&mut output, x),
            }
        }
        output
    }
}
