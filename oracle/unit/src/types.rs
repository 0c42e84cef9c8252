//! Types: document 01's section "Type". The names are those of the Rust's `SignatureToken`.

/// A type of a unit.
#[derive(Clone, PartialEq, Eq, Debug)]
pub enum Type {
    Bool,
    U8,
    U64,
    U128,
    Address,
    Signer,
    Vector(Box<Type>),
    Struct(u16),
    StructInstantiation(u16, Vec<Type>),
    Reference(Box<Type>),
    MutableReference(Box<Type>),
    TypeParameter(u16),
}

impl Type {
    pub fn vector(self) -> Type {
        Type::Vector(Box::new(self))
    }

    pub fn reference(self) -> Type {
        Type::Reference(Box::new(self))
    }

    pub fn mutable(self) -> Type {
        Type::MutableReference(Box::new(self))
    }

    pub fn is_reference(&self) -> bool {
        matches!(self, Type::Reference(_) | Type::MutableReference(_))
    }

    /// Appends the type's bytes.
    pub fn write(&self, out: &mut Vec<u8>) {
        match self {
            Type::Bool => out.push(0x01),
            Type::U8 => out.push(0x02),
            Type::U64 => out.push(0x03),
            Type::U128 => out.push(0x04),
            Type::Address => out.push(0x05),
            Type::Signer => out.push(0x06),
            Type::Vector(inner) => write_over(out, 0x07, inner),
            Type::Struct(handle) => write_index(out, 0x08, *handle),
            Type::StructInstantiation(handle, arguments) => {
                write_index(out, 0x09, *handle);
                write_list(out, arguments);
            }
            Type::Reference(inner) => write_over(out, 0x0A, inner),
            Type::MutableReference(inner) => write_over(out, 0x0B, inner),
            Type::TypeParameter(index) => write_index(out, 0x0C, *index),
        }
    }
}

fn write_over(out: &mut Vec<u8>, command: u8, inner: &Type) {
    out.push(command);
    inner.write(out);
}

fn write_index(out: &mut Vec<u8>, command: u8, index: u16) {
    out.push(command);
    out.extend(index.to_le_bytes());
}

/// Appends a u8 count and that many types.
pub fn write_list(out: &mut Vec<u8>, types: &[Type]) {
    out.push(u8::try_from(types.len()).expect("a list of types has at most 255"));
    types.iter().for_each(|each| each.write(out));
}
