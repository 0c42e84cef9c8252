//! The reader: a unit's bytes to its tables, or the refusal that document 01's "Verdict" names first (1 to 8; the
//! area's 9 is the caller's). Written from that text, left to right.
use unit::tables::*;
use unit::verdict::number::*;
use unit::{Form, Instruction, Opcode, Type, Verdict, DEEPEST_TYPE, LONGEST_UNIT};

type Reading<T> = Result<T, Verdict>;

/// Reads a whole unit.
pub fn read(bytes: &[u8]) -> Reading<Unit> {
    if bytes.len() > LONGEST_UNIT {
        return Err(Verdict::at_byte(TOO_LONG, 0));
    }
    let mut cursor = Cursor { bytes, at: 0 };
    let mut unit = Unit { is_script: cursor.head()?, ..Unit::default() };
    let block_places = cursor.records(&mut unit)?;
    if cursor.at < bytes.len() {
        return Err(Verdict::at_byte(TRAILING, cursor.at));
    }
    judge_blocks(&unit, &block_places)?;
    Ok(unit)
}

/// The blocks are judged last, the first bad one by its command's byte.
fn judge_blocks(unit: &Unit, places: &[usize]) -> Reading<()> {
    for (block, &place) in unit.blocks.iter().zip(places) {
        if block.first > block.last || usize::from(block.last) >= unit.code.len() {
            return Err(Verdict::at_byte(BLOCK, place));
        }
    }
    Ok(())
}

/// The bytes of a unit and how far they are read.
struct Cursor<'a> {
    bytes: &'a [u8],
    at: usize,
}

impl Cursor<'_> {
    // ── numbers ──

    fn byte(&mut self) -> Reading<u8> {
        Ok(self.bytes_of::<1>()?[0])
    }

    fn u16(&mut self) -> Reading<u16> {
        Ok(u16::from_le_bytes(self.bytes_of()?))
    }

    /// The next `N` bytes. A number that is cut is SHORT at the unit's length, like any missing byte.
    fn bytes_of<const N: usize>(&mut self) -> Reading<[u8; N]> {
        match self.bytes.get(self.at..self.at + N) {
            Some(found) => {
                self.at += N;
                Ok(found.try_into().expect("a part of N bytes has N bytes"))
            }
            None => Err(Verdict::at_byte(SHORT, self.bytes.len())),
        }
    }

    /// A byte that is at most so much.
    fn byte_up_to(&mut self, most: u8) -> Reading<u8> {
        let at = self.at;
        let byte = self.byte()?;
        if byte > most {
            return Err(Verdict::at_byte(VALUE, at));
        }
        Ok(byte)
    }

    /// A u8 count and that many items.
    fn counted<T>(&mut self, mut item: impl FnMut(&mut Self) -> Reading<T>) -> Reading<Vec<T>> {
        let count = self.byte()?;
        (0..count).map(|_| item(self)).collect()
    }

    // ── records ──

    /// Whether the head opens a script.
    fn head(&mut self) -> Reading<bool> {
        match self.byte()? {
            0x01 => Ok(false),
            0x02 => Ok(true),
            _ => Err(Verdict::at_byte(COMMAND, 0)),
        }
    }

    /// All records, to the end of the code; the answer is the place of each block's command.
    fn records(&mut self, unit: &mut Unit) -> Reading<Vec<usize>> {
        let mut block_places = Vec::new();
        let mut before = 0;
        let mut has_function = false;
        loop {
            let at = self.at;
            let command = self.command(unit.is_script, before, has_function)?;
            match command {
                0x19 => has_function = true,
                0x1A => block_places.push(at),
                _ => (),
            }
            self.record(command, unit)?;
            if command == 0x1B {
                return Ok(block_places);
            }
            before = command;
        }
    }

    /// The command byte of a record: COMMAND is judged before ORDER.
    fn command(&mut self, is_script: bool, before: u8, has_function: bool) -> Reading<u8> {
        let at = self.at;
        let command = self.byte()?;
        let known = matches!(command, 0x10..=0x1B) && !(is_script && matches!(command, 0x14..=0x17));
        if !known {
            return Err(Verdict::at_byte(COMMAND, at));
        }
        let second_function = command == 0x19 && has_function;
        let too_early = command > 0x19 && !has_function;
        if command < before || second_function || too_early {
            return Err(Verdict::at_byte(ORDER, at));
        }
        Ok(command)
    }

    /// What follows a known command.
    fn record(&mut self, command: u8, unit: &mut Unit) -> Reading<()> {
        match command {
            0x10 => unit.struct_handles.push(self.struct_handle()?),
            0x11 => unit.signatures.push(self.counted(Self::a_type)?),
            0x12 => {
                let (parameters, returns) = self.pair()?;
                unit.function_handles.push(FunctionHandle { parameters, returns });
            }
            0x13 => unit.function_instantiations.push(self.instantiation()?),
            0x14 => unit.struct_definitions.push(self.struct_definition()?),
            0x15 => unit.struct_instantiations.push(self.instantiation()?),
            0x16 => {
                let (owner, field) = self.pair()?;
                unit.field_handles.push(FieldHandle { owner, field });
            }
            0x17 => unit.field_instantiations.push(self.instantiation()?),
            0x18 => unit.constants.push(self.a_type()?),
            0x19 => unit.function = self.function(unit.signatures.len())?,
            0x1A => {
                let (first, last) = self.pair()?;
                unit.blocks.push(Block { first, last });
            }
            _ => unit.code = self.code()?,
        }
        Ok(())
    }

    fn pair(&mut self) -> Reading<(u16, u16)> {
        Ok((self.u16()?, self.u16()?))
    }

    fn instantiation(&mut self) -> Reading<Instantiation> {
        let (of, arguments) = self.pair()?;
        Ok(Instantiation { of, arguments })
    }

    fn struct_handle(&mut self) -> Reading<StructHandle> {
        let abilities = self.byte_up_to(15)?;
        let phantom = self.counted(|cursor| Ok(cursor.byte_up_to(1)? == 1))?;
        Ok(StructHandle { abilities, phantom })
    }

    fn struct_definition(&mut self) -> Reading<StructDefinition> {
        let handle = self.u16()?;
        let declared = self.byte_up_to(1)? == 1;
        let fields = if declared { Some(self.counted(Self::a_type)?) } else { None };
        Ok(StructDefinition { handle, fields })
    }

    fn function(&mut self, signatures: usize) -> Reading<Function> {
        Ok(Function {
            parameters: self.signature_index(signatures)?,
            returns: self.signature_index(signatures)?,
            locals: self.signature_index(signatures)?,
            abilities: self.counted(|cursor| cursor.byte_up_to(15))?,
        })
    }

    /// The indexes of `19` are judged one by one, each as soon as it is whole, by its first byte.
    fn signature_index(&mut self, signatures: usize) -> Reading<u16> {
        let at = self.at;
        let index = self.u16()?;
        if usize::from(index) >= signatures {
            return Err(Verdict::at_byte(VALUE, at));
        }
        Ok(index)
    }

    // ── types ──

    fn a_type(&mut self) -> Reading<Type> {
        self.type_at_level(1)
    }

    /// The byte of level 33 is DEPTH whatever it is, if it is there.
    fn type_at_level(&mut self, level: usize) -> Reading<Type> {
        let at = self.at;
        let command = self.byte()?;
        if level > DEEPEST_TYPE {
            return Err(Verdict::at_byte(DEPTH, at));
        }
        Ok(match command {
            0x01 => Type::Bool,
            0x02 => Type::U8,
            0x03 => Type::U64,
            0x04 => Type::U128,
            0x05 => Type::Address,
            0x06 => Type::Signer,
            0x07 => self.type_at_level(level + 1)?.vector(),
            0x08 => Type::Struct(self.u16()?),
            0x09 => Type::StructInstantiation(self.u16()?, self.counted(|c| c.type_at_level(level + 1))?),
            0x0A => self.type_at_level(level + 1)?.reference(),
            0x0B => self.type_at_level(level + 1)?.mutable(),
            0x0C => Type::TypeParameter(self.u16()?),
            _ => return Err(Verdict::at_byte(COMMAND, at)),
        })
    }

    // ── code ──

    fn code(&mut self) -> Reading<Vec<Instruction>> {
        let count = self.u16()?;
        (0..count).map(|_| self.instruction()).collect()
    }

    fn instruction(&mut self) -> Reading<Instruction> {
        let at = self.at;
        let Some(opcode) = Opcode::of(self.byte()?) else {
            return Err(Verdict::at_byte(COMMAND, at));
        };
        let mut instruction = Instruction::plain(opcode);
        match opcode.form() {
            Form::Plain => (),
            Form::Offset | Form::Index => instruction.index = self.u16()?,
            Form::Local => instruction.index = u16::from(self.byte()?),
            Form::Integer(width) => instruction.value = self.integer(width)?,
            Form::Counted => {
                instruction.index = self.u16()?;
                instruction.count = u64::from_le_bytes(self.bytes_of()?);
            }
        }
        Ok(instruction)
    }

    /// A loaded integer of 1, 8 or 16 bytes.
    fn integer(&mut self, width: usize) -> Reading<u128> {
        Ok(match width {
            1 => u128::from(self.byte()?),
            8 => u128::from(u64::from_le_bytes(self.bytes_of()?)),
            _ => u128::from_le_bytes(self.bytes_of()?),
        })
    }
}
