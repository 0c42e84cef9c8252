//! Random types, and what the generator has to know of types to write code that is accepted: substitution, and
//! abilities where they are sure. A mistake here would make fewer units accepted, and no verdict wrong.
use crate::rng::Rng;
use unit::tables::StructHandle;
use unit::{Type, Unit};

pub const COPY: u8 = 1;
pub const DROP: u8 = 2;
pub const STORE: u8 = 4;
pub const KEY: u8 = 8;

/// How many types are made for one that has something wrong, in units that are to be good.
pub const SELDOM: usize = 600;
/// The same in units in which refusals are to meet.
pub const OFTEN: usize = 8;

/// What a random type may name: struct handles, and type parameters under a number. One type in `odd` has something
/// wrong.
#[derive(Clone, Copy)]
pub struct Scope<'a> {
    pub handles: &'a [StructHandle],
    pub parameters: usize,
    pub odd: usize,
}

impl<'a> Scope<'a> {
    /// The types that the unit's own function may use.
    pub fn of_function(unit: &'a Unit, odd: usize) -> Scope<'a> {
        Scope { handles: &unit.struct_handles, parameters: unit.function.abilities.len(), odd }
    }

    /// Any type: a value's, or a reference to one.
    pub fn any(self, rng: &mut Rng) -> Type {
        let value = self.value(rng, 3);
        match rng.below(8) {
            0 | 1 => value.reference(),
            2 => value.mutable(),
            _ => value,
        }
    }

    /// A type that is no reference, of about so many levels.
    pub fn value(self, rng: &mut Rng, levels: usize) -> Type {
        if rng.once_in(self.odd) {
            return self.odd_type(rng);
        }
        match rng.below(16) {
            0..=2 if levels > 1 => self.value(rng, levels - 1).vector(),
            3..=6 if levels > 1 => self.a_struct(rng, levels),
            7 | 8 if self.parameters > 0 => Type::TypeParameter(rng.below(self.parameters) as u16),
            _ => primitive(rng),
        }
    }

    /// A struct with as many arguments as it has parameters.
    fn a_struct(self, rng: &mut Rng, levels: usize) -> Type {
        let Some(handle) = rng.index(self.handles.len()) else {
            return primitive(rng);
        };
        let count = self.handles[usize::from(handle)].phantom.len();
        if count == 0 {
            return Type::Struct(handle);
        }
        let mut argument = || self.value(rng, if count > 4 { 1 } else { levels - 1 });
        Type::StructInstantiation(handle, (0..count).map(|_| argument()).collect())
    }

    /// A type that is read but has something wrong: it names nothing, has the wrong number of arguments, or holds a
    /// reference.
    fn odd_type(self, rng: &mut Rng) -> Type {
        let handle = rng.below(self.handles.len() + 2) as u16;
        let some = |rng: &mut Rng| if rng.once_in(3) { Type::Struct(99) } else { primitive(rng) };
        match rng.below(7) {
            0 => Type::Struct(handle),
            1 => Type::StructInstantiation(handle, vec![]),
            2 => Type::StructInstantiation(handle, vec![some(rng)]),
            3 => Type::StructInstantiation(handle, vec![some(rng), some(rng)]),
            4 => Type::TypeParameter((self.parameters + rng.below(3)) as u16),
            5 => some(rng).reference().vector(),
            _ => some(rng).mutable(),
        }
    }
}

pub fn primitive(rng: &mut Rng) -> Type {
    match rng.below(8) {
        0 => Type::Bool,
        1 => Type::U8,
        2 => Type::U128,
        3 => Type::Address,
        4 => Type::Signer,
        5 => Type::Bool,
        _ => Type::U64,
    }
}

pub fn integer(rng: &mut Rng) -> Type {
    rng.pick(&[Type::U8, Type::U64, Type::U128]).clone()
}

/// A type that is almost this one.
pub fn near(rng: &mut Rng, a_type: &Type) -> Type {
    match a_type {
        Type::U8 | Type::U64 | Type::U128 => integer(rng),
        Type::Reference(inner) if rng.once_in(2) => inner.clone().mutable(),
        Type::MutableReference(inner) if rng.once_in(2) => inner.clone().reference(),
        Type::Vector(inner) => near(rng, inner).vector(),
        Type::Reference(inner) => near(rng, inner).reference(),
        Type::MutableReference(inner) => near(rng, inner).mutable(),
        Type::Struct(handle) if rng.once_in(2) => Type::StructInstantiation(*handle, vec![]),
        Type::StructInstantiation(handle, own) if !own.is_empty() => {
            let mut own = own.clone();
            let at = rng.below(own.len());
            own[at] = near(rng, &own[at]);
            Type::StructInstantiation(*handle, own)
        }
        other => other.clone().reference(),
    }
}

/// The type with its parameters filled in; none where one has no place in the list.
pub fn instantiate(a_type: &Type, arguments: &[Type]) -> Option<Type> {
    Some(match a_type {
        Type::Vector(inner) => instantiate(inner, arguments)?.vector(),
        Type::Reference(inner) => instantiate(inner, arguments)?.reference(),
        Type::MutableReference(inner) => instantiate(inner, arguments)?.mutable(),
        Type::StructInstantiation(handle, own) => {
            Type::StructInstantiation(*handle, instantiate_each(own, arguments)?)
        }
        Type::TypeParameter(index) => arguments.get(usize::from(*index))?.clone(),
        leaf => leaf.clone(),
    })
}

pub fn instantiate_each(types: &[Type], arguments: &[Type]) -> Option<Vec<Type>> {
    types.iter().map(|each| instantiate(each, arguments)).collect()
}

/// How many arguments a list must have to fill these types in.
pub fn parameters_of(types: &[Type]) -> usize {
    types.iter().map(parameters_in).max().unwrap_or(0)
}

fn parameters_in(a_type: &Type) -> usize {
    match a_type {
        Type::Vector(inner) | Type::Reference(inner) | Type::MutableReference(inner) => parameters_in(inner),
        Type::StructInstantiation(_, own) => parameters_of(own),
        Type::TypeParameter(index) => usize::from(*index) + 1,
        _ => 0,
    }
}

/// The type of a struct with these type arguments.
pub fn materialize(handle: u16, arguments: &[Type]) -> Type {
    if arguments.is_empty() {
        Type::Struct(handle)
    } else {
        Type::StructInstantiation(handle, arguments.to_vec())
    }
}

/// Whether the type surely has an ability in the unit's function. Phantom parameters are not taken into account.
pub fn surely_has(unit: &Unit, a_type: &Type, ability: u8) -> bool {
    let needed = if ability == KEY { STORE } else { ability };
    match a_type {
        Type::Reference(_) | Type::MutableReference(_) => (COPY | DROP) & ability != 0,
        Type::Signer => ability == DROP,
        Type::Vector(inner) => ability != KEY && surely_has(unit, inner, ability),
        Type::Struct(handle) => handle_has(unit, *handle, ability),
        Type::StructInstantiation(handle, arguments) => {
            handle_has(unit, *handle, ability) && arguments.iter().all(|each| surely_has(unit, each, needed))
        }
        Type::TypeParameter(index) => {
            unit.function.abilities.get(usize::from(*index)).is_some_and(|set| set & ability != 0)
        }
        _ => ability != KEY,
    }
}

fn handle_has(unit: &Unit, handle: u16, ability: u8) -> bool {
    unit.struct_handles.get(usize::from(handle)).is_some_and(|found| found.abilities & ability != 0)
}
