//! Stand-ins for modules of `move_core_types`. A unit has no addresses and no names, so these are empty.

pub mod account_address {
    #[derive(Clone, Copy, Debug, PartialEq, Eq, PartialOrd, Ord, Hash)]
    pub struct AccountAddress;

    impl AccountAddress {
        pub const ZERO: AccountAddress = AccountAddress;
    }
}

pub mod identifier {
    #[derive(Clone, Debug, PartialEq, Eq, PartialOrd, Ord, Hash)]
    pub struct Identifier;

    pub type IdentStr = Identifier;

    impl Identifier {
        pub fn new(_name: String) -> Option<Identifier> {
            Some(Identifier)
        }
    }

    impl crate::RefCast for Identifier {
        type From = str;

        fn ref_cast(_name: &str) -> &Identifier {
            &Identifier
        }
    }
}

pub mod language_storage {
    use super::{account_address::AccountAddress, identifier::Identifier};

    #[derive(Clone, Debug, PartialEq, Eq, PartialOrd, Ord, Hash)]
    pub struct ModuleId;

    impl ModuleId {
        pub fn new(_address: AccountAddress, _name: Identifier) -> ModuleId {
            ModuleId
        }
    }
}

pub mod metadata {
    #[derive(Clone, Debug, PartialEq, Eq)]
    pub struct Metadata;
}
