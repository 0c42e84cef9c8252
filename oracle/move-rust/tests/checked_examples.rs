//! Document 01's checked examples that are about abilities, asked of the repository's `BinaryIndexedView`.
use move_rust::binary_views::BinaryIndexedView;
use move_rust::file_format::*;

/// A struct handle of those abilities, with a parameter for each phantom mark.
fn handle(abilities: u8, phantom: &[bool]) -> StructHandle {
    let parameter = |&is_phantom: &bool| StructTypeParameter { constraints: AbilitySet::EMPTY, is_phantom };
    StructHandle {
        module: ModuleHandleIndex(0),
        name: IdentifierIndex(0),
        abilities: AbilitySet::from_u8(abilities).unwrap(),
        type_parameters: phantom.iter().map(parameter).collect(),
    }
}

fn abilities(token: SignatureToken) -> u8 {
    let struct_handles = vec![handle(8, &[]), handle(15, &[false]), handle(15, &[true])];
    let module = CompiledModule { struct_handles, ..CompiledModule::default() };
    BinaryIndexedView::Module(&module).abilities(&token, &[]).unwrap().into_u8()
}

#[test]
fn abilities_of_the_checked_examples() {
    use SignatureToken::*;
    let over = |handle, argument| StructInstantiation(StructHandleIndex(handle), vec![argument]);
    assert_eq!(abilities(U64), 7);
    assert_eq!(abilities(Reference(Box::new(Signer))), 3);
    assert_eq!(abilities(Vector(Box::new(Signer))), 2);
    assert_eq!(abilities(over(1, U64)), 15);
    assert_eq!(abilities(over(1, Signer)), 2);
    assert_eq!(abilities(over(2, Signer)), 15);
    assert_eq!(abilities(over(1, Struct(StructHandleIndex(0)))), 0);
}
