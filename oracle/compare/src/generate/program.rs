//! Code that is mostly accepted. Each instruction is chosen freely; what it takes is put on the stack before it, unless
//! it is there. A local of any type is made when one is wanted, so every type can be put on the stack and taken off it.
use super::effects::Effect;
use super::tables::push_signature;
use super::types::{instantiate_each, near, primitive, surely_has, Scope, DROP, OFTEN};
use crate::rng::Rng;
use unit::{Form, Instruction, Opcode, Type, Unit};

/// The most locals that are made. A local is named by a byte.
const MOST_LOCALS: usize = 250;

/// A unit's code while it is written, with the stack that it leaves.
pub struct Program<'a> {
    pub rng: &'a mut Rng,
    pub unit: &'a mut Unit,
    pub stack: Vec<Type>,
    pub locals: Vec<Type>,
    /// The offsets at which the stack is empty: where blocks may begin and branches may go.
    pub rests: Vec<u16>,
    /// Whether abilities and native structs are taken no heed of.
    pub careless: bool,
    /// How many types are made for one that has something wrong.
    odd: usize,
}

impl<'a> Program<'a> {
    pub fn new(rng: &'a mut Rng, unit: &'a mut Unit, odd: usize) -> Program<'a> {
        let careless = odd == OFTEN || rng.once_in(6);
        Program { rng, unit, stack: vec![], locals: vec![], rests: vec![0], careless, odd }
    }

    /// Writes code of about so many chosen instructions, and ends it with Ret.
    pub fn write(mut self, chosen: usize) -> Vec<u16> {
        let deepest = *self.rng.pick(&[3, 6, 12, 40]);
        for _ in 0..chosen {
            if self.rng.once_in(8) || self.stack.len() > deepest {
                self.empty_stack();
            }
            self.add_any();
        }
        if !self.rng.once_in(16) {
            self.empty_stack();
        }
        self.add(Opcode::Ret);
        self.finish()
    }

    /// Writes one instruction, mostly one that names something, over operands that nearly fit: some are of another
    /// type, or missing.
    pub fn write_one(mut self) {
        let mut opcode = *self.rng.pick(Opcode::ALL);
        while matches!(opcode.form(), Form::Plain | Form::Offset | Form::Integer(_)) && !self.rng.once_in(4) {
            opcode = *self.rng.pick(Opcode::ALL);
        }
        let (instruction, takes) = match self.effect(opcode) {
            Some(effect) => (effect.instruction, effect.takes),
            None => (Instruction::counted(opcode, self.rng.below(3) as u16, 1), vec![Type::Address]),
        };
        let missing = if self.rng.once_in(3) { self.rng.below(takes.len() + 1) } else { 0 };
        for a_type in &takes[missing..] {
            let other = match self.rng.below(8) {
                0 => Scope::of_function(self.unit, self.odd).any(self.rng),
                1 => near(self.rng, a_type),
                _ => a_type.clone(),
            };
            self.put_one(&other);
        }
        self.unit.code.push(instruction);
        self.finish();
    }

    /// Adds an instruction of any kind, or nothing where the tables have nothing for it.
    fn add_any(&mut self) {
        let opcode = *self.rng.pick(Opcode::ALL);
        let ends_block =
            matches!(opcode.form(), Form::Offset) || matches!(opcode, Opcode::Ret | Opcode::Abort);
        if ends_block && !self.rng.once_in(8) {
            self.empty_stack();
        }
        self.add(opcode);
        self.note_rest();
    }

    pub fn add(&mut self, opcode: Opcode) {
        let Some(Effect { instruction, takes, leaves }) = self.effect(opcode) else { return };
        self.put(&takes);
        self.stack.truncate(self.stack.len() - takes.len());
        self.unit.code.push(instruction);
        self.stack.extend(leaves);
    }

    /// Puts these on top of the stack, using what is there already.
    fn put(&mut self, types: &[Type]) {
        let there = (0..=types.len()).rev().find(|&count| self.stack.ends_with(&types[..count])).unwrap_or(0);
        for a_type in &types[there..] {
            self.put_one(a_type);
        }
    }

    fn put_one(&mut self, a_type: &Type) {
        let instruction = match (a_type, self.rng.below(2)) {
            (Type::Bool, 0) => Instruction::plain(Opcode::LdTrue),
            (Type::U8, 0) => Instruction::plain(Opcode::LdU8),
            (Type::U64, 0) => Instruction::plain(Opcode::LdU64),
            (Type::U128, 0) => Instruction::plain(Opcode::LdU128),
            _ => Instruction::indexed(Opcode::MoveLoc, self.local_of(a_type)),
        };
        self.unit.code.push(instruction);
        self.stack.push(a_type.clone());
    }

    /// A local of the type, made if there is none.
    pub fn local_of(&mut self, a_type: &Type) -> u16 {
        if let Some(found) = self.locals.iter().position(|local| local == a_type) {
            return found as u16;
        }
        if self.locals.len() < MOST_LOCALS {
            self.locals.push(a_type.clone());
        }
        (self.locals.len() - 1) as u16
    }

    /// Takes everything off the stack.
    fn empty_stack(&mut self) {
        while let Some(top) = self.stack.pop() {
            let instruction = if self.has(&top, DROP) && !self.rng.once_in(4) {
                Instruction::plain(Opcode::Pop)
            } else {
                Instruction::indexed(Opcode::StLoc, self.local_of(&top))
            };
            self.unit.code.push(instruction);
        }
        self.note_rest();
    }

    fn note_rest(&mut self) {
        let here = self.unit.code.len() as u16;
        if self.stack.is_empty() && self.rests.last() != Some(&here) {
            self.rests.push(here);
        }
    }

    /// Points the branches to rests, and divides the locals between the parameters and the locals.
    fn finish(self) -> Vec<u16> {
        let Program { rng, unit, locals, mut rests, .. } = self;
        rests.retain(|&rest| usize::from(rest) < unit.code.len());
        for instruction in &mut unit.code {
            match instruction.opcode.form() {
                Form::Offset if rng.once_in(64) => instruction.index = rng.word() as u16,
                Form::Offset => instruction.index = *rng.pick(&rests),
                Form::Integer(_) => instruction.value = u128::from(rng.word()),
                _ => (),
            }
        }
        let divide = rng.below(locals.len() + 1);
        unit.function.parameters = push_signature(unit, locals[..divide].to_vec());
        unit.function.locals = push_signature(unit, locals[divide..].to_vec());
        rests
    }

    // ── what the effects ask ──

    /// Whether the type may be taken to have the ability. Ability 0 is no demand.
    pub fn has(&self, a_type: &Type, ability: u8) -> bool {
        self.careless || ability == 0 || surely_has(self.unit, a_type, ability)
    }

    /// A type with the ability: that of the top of the stack if it fits, or any.
    pub fn some_type(&mut self, ability: u8) -> Type {
        if let Some(top) = self.stack.last() {
            if self.has(top, ability) && !self.rng.once_in(4) {
                return top.clone();
            }
        }
        let random = Scope::of_function(self.unit, self.odd).any(self.rng);
        if self.has(&random, ability) {
            random
        } else {
            primitive(self.rng)
        }
    }

    /// A type that is no reference.
    pub fn some_value(&mut self, ability: u8) -> Type {
        match self.some_type(ability) {
            Type::Reference(inner) | Type::MutableReference(inner) if !inner.is_reference() => *inner,
            Type::Reference(_) | Type::MutableReference(_) => Type::U64,
            value => value,
        }
    }

    /// A reference to the type, of either kind.
    pub fn some_reference(&mut self, a_type: Type) -> Type {
        if self.rng.once_in(2) {
            a_type.reference()
        } else {
            a_type.mutable()
        }
    }

    /// A signature whose first type is an element type, and that type.
    pub fn element(&mut self) -> (u16, Type) {
        let found = self.rng.below(self.unit.signatures.len());
        match self.unit.signatures[found].first() {
            Some(first) if !first.is_reference() => (found as u16, first.clone()),
            _ => {
                let element = self.some_value(0);
                (push_signature(self.unit, vec![element.clone()]), element)
            }
        }
    }

    /// The types of a signature, filled in by those of another.
    pub fn filled_in(&self, signature: u16, arguments: &[Type]) -> Option<Vec<Type>> {
        instantiate_each(self.unit.signatures.get(usize::from(signature))?, arguments)
    }
}
