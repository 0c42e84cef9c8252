//! The writer: a unit's tables as bytes, records in the order of their commands.
use crate::tables::*;
use crate::types::write_list;

impl Unit {
    /// The unit's bytes. A script's tables `14` to `17` are written too if it has any; the reader refuses them.
    pub fn write(&self) -> Vec<u8> {
        let mut out = Vec::with_capacity(256);
        out.push(if self.is_script { 0x02 } else { 0x01 });
        self.write_handles(&mut out);
        self.write_definitions(&mut out);
        self.write_function(&mut out);
        out
    }

    fn write_handles(&self, out: &mut Vec<u8>) {
        for handle in &self.struct_handles {
            out.extend([0x10, handle.abilities]);
            out.push(u8::try_from(handle.phantom.len()).expect("a struct has at most 255 parameters"));
            out.extend(handle.phantom.iter().map(|&phantom| u8::from(phantom)));
        }
        for signature in &self.signatures {
            out.push(0x11);
            write_list(out, signature);
        }
        for handle in &self.function_handles {
            write_pair(out, 0x12, handle.parameters, handle.returns);
        }
        write_instantiations(out, 0x13, &self.function_instantiations);
    }

    fn write_definitions(&self, out: &mut Vec<u8>) {
        for definition in &self.struct_definitions {
            out.push(0x14);
            out.extend(definition.handle.to_le_bytes());
            match &definition.fields {
                None => out.push(0),
                Some(fields) => {
                    out.push(1);
                    write_list(out, fields);
                }
            }
        }
        write_instantiations(out, 0x15, &self.struct_instantiations);
        for handle in &self.field_handles {
            write_pair(out, 0x16, handle.owner, handle.field);
        }
        write_instantiations(out, 0x17, &self.field_instantiations);
        for constant in &self.constants {
            out.push(0x18);
            constant.write(out);
        }
    }

    fn write_function(&self, out: &mut Vec<u8>) {
        let function = &self.function;
        write_pair(out, 0x19, function.parameters, function.returns);
        out.extend(function.locals.to_le_bytes());
        out.push(u8::try_from(function.abilities.len()).expect("a function has at most 255 type parameters"));
        out.extend(&function.abilities);
        for block in &self.blocks {
            write_pair(out, 0x1A, block.first, block.last);
        }
        out.push(0x1B);
        out.extend(u16::try_from(self.code.len()).expect("the count of instructions is a u16").to_le_bytes());
        self.code.iter().for_each(|instruction| instruction.write(out));
    }
}

fn write_pair(out: &mut Vec<u8>, command: u8, first: u16, second: u16) {
    out.push(command);
    out.extend(first.to_le_bytes());
    out.extend(second.to_le_bytes());
}

fn write_instantiations(out: &mut Vec<u8>, command: u8, table: &[Instantiation]) {
    for each in table {
        write_pair(out, command, each.of, each.arguments);
    }
}
