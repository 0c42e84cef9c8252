//! The tables of the sweep, and the kinds of types that it puts on the stack.
use unit::tables::*;
use unit::{Type, Unit};

/// The signature of the function's locals: the stack's types are put before what is in it.
pub const LOCALS: usize = 9;

/// Handles 0, 1 and 2: abilities 7, key alone, and native. Handle 3 has one parameter, handle 4 a phantom one.
const S: Type = Type::Struct(0);
const K: Type = Type::Struct(1);
const N: Type = Type::Struct(2);

fn g(arguments: Vec<Type>) -> Type {
    Type::StructInstantiation(3, arguments)
}

/// Types of every kind.
pub fn kinds() -> Vec<Type> {
    let mut kinds = vec![
        Type::Bool,
        Type::U8,
        Type::U64,
        Type::U128,
        Type::Address,
        Type::Signer,
        Type::TypeParameter(0),
        Type::TypeParameter(1),
        S,
        K,
        N,
        Type::Struct(99),
        g(vec![Type::U8]),
        g(vec![K]),
        g(vec![Type::U8, Type::U8]),
        g(vec![]),
        Type::StructInstantiation(4, vec![Type::Signer]),
        Type::StructInstantiation(2, vec![Type::U8]),
        Type::U8.vector(),
        K.vector(),
    ];
    let referred = [
        Type::U8,
        Type::Signer,
        S,
        K,
        N,
        Type::Struct(3),
        Type::Struct(99),
        g(vec![Type::U8]),
        g(vec![Type::U8, Type::U8]),
        Type::StructInstantiation(2, vec![Type::U8]),
        Type::U8.vector(),
        Type::Bool.vector(),
    ];
    for inner in referred {
        kinds.push(inner.clone().reference());
        kinds.push(inner.mutable());
    }
    kinds
}

/// The kinds that matter to VecSwap, few enough for every stack of three.
pub fn kinds_for_swap() -> Vec<Type> {
    let vector = Type::U8.vector();
    let vectors =
        [vector.clone(), vector.clone().reference(), vector.mutable(), Type::Bool.vector().mutable()];
    [Type::U64, Type::U8, Type::Bool, K].into_iter().chain(vectors).collect()
}

/// Tables with something of every sort, and entries that name nothing. A script has no `14` to `17`.
pub fn base(is_script: bool) -> Unit {
    let mut unit = Unit {
        is_script,
        struct_handles: struct_handles(),
        signatures: signatures(),
        function_handles: pairs(FUNCTION_HANDLES, |parameters, returns| FunctionHandle {
            parameters,
            returns,
        }),
        function_instantiations: pairs(FUNCTION_INSTANTIATIONS, instantiation),
        constants: vec![Type::Bool, Type::U8.vector(), Type::TypeParameter(9).reference()],
        function: Function { parameters: 0, returns: 2, locals: LOCALS as u16, abilities: vec![7] },
        ..Unit::default()
    };
    if !is_script {
        unit.struct_definitions = struct_definitions();
        unit.struct_instantiations = pairs(STRUCT_INSTANTIATIONS, instantiation);
        unit.field_handles = pairs(FIELD_HANDLES, |owner, field| FieldHandle { owner, field });
        unit.field_instantiations = pairs(FIELD_INSTANTIATIONS, instantiation);
    }
    unit
}

/// Entries of two indexes; 99 names nothing.
type Pairs = &'static [(u16, u16)];

/// Parameters and returns: plain, generic with a return past its argument, and without a signature.
const FUNCTION_HANDLES: Pairs = &[(1, 0), (6, 3), (7, 8), (99, 0), (1, 99), (0, 7), (0, 3)];
/// With u8, K, nothing and signer as arguments, and without a handle or a signature.
const FUNCTION_INSTANTIATIONS: Pairs = &[(2, 1), (2, 4), (2, 0), (0, 1), (99, 1), (2, 99), (5, 5)];
/// Of the structs with a parameter, with one argument, two and none; of others; and without a definition or a signature.
const STRUCT_INSTANTIATIONS: Pairs =
    &[(3, 1), (3, 5), (3, 4), (3, 6), (3, 0), (4, 5), (2, 1), (0, 0), (99, 1), (3, 99)];
/// Fields that are there, of a native struct, past the fields, and of no struct.
const FIELD_HANDLES: Pairs =
    &[(0, 0), (2, 0), (1, 0), (0, 5), (99, 0), (3, 0), (3, 1), (6, 0), (0, 1), (3, 2)];
/// The same with one argument and with none, and without a handle or a signature.
const FIELD_INSTANTIATIONS: Pairs =
    &[(5, 1), (6, 1), (0, 0), (99, 1), (5, 99), (5, 0), (1, 0), (0, 1), (1, 1), (9, 1)];

fn instantiation(of: u16, arguments: u16) -> Instantiation {
    Instantiation { of, arguments }
}

fn pairs<T>(list: &[(u16, u16)], make: impl Fn(u16, u16) -> T) -> Vec<T> {
    list.iter().map(|&(first, second)| make(first, second)).collect()
}

fn struct_handles() -> Vec<StructHandle> {
    let plain = |abilities| StructHandle { abilities, phantom: vec![] };
    let generic = |phantom| StructHandle { abilities: 15, phantom: vec![phantom] };
    vec![plain(7), plain(8), plain(7), generic(false), generic(true)]
}

fn signatures() -> Vec<Vec<Type>> {
    let parameter = Type::TypeParameter(0);
    vec![
        vec![],
        vec![Type::U8],
        vec![Type::Bool],
        vec![Type::U64],
        vec![K],
        vec![Type::Signer],
        vec![Type::U8, Type::U8],
        vec![parameter.clone()],
        vec![parameter, Type::TypeParameter(1)],
        // The locals, after those of the stack.
        vec![Type::U8, K, Type::U8.reference(), g(vec![Type::U8, Type::U8])],
    ]
}

fn struct_definitions() -> Vec<StructDefinition> {
    let declared = |handle, fields| StructDefinition { handle, fields: Some(fields) };
    let parameter = Type::TypeParameter(0);
    let long = Type::U8.vector().vector().vector().vector().vector();
    vec![
        // A reference to the second field is longer than one to the struct.
        declared(0, vec![Type::U8, long.clone()]),
        declared(1, vec![Type::U8]),
        StructDefinition { handle: 2, fields: None },
        declared(3, vec![parameter.clone(), parameter.clone().vector(), long]),
        declared(4, vec![]),
        declared(99, vec![Type::Bool]),
        // Not generic, yet it names a parameter.
        declared(0, vec![parameter]),
        declared(1, vec![Type::U8, Type::Bool]),
    ]
}
