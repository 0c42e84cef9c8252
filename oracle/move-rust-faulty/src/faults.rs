//! Faults in the passes and in the reader: in a copy of the file `file`, the text `from` becomes `to`, in which FAULT
//! is whether the fault is switched on.

pub struct Fault {
    pub what: &'static str,
    pub file: &'static str,
    pub from: &'static str,
    pub to: &'static str,
}

pub const FAULTS: &[Fault] = &[
    // ── the reader ──
    Fault {
        what: "a type may nest 33 levels",
        file: "read",
        from: "if level > DEEPEST_TYPE {",
        to: "if level > DEEPEST_TYPE + usize::from(FAULT) {",
    },
    Fault {
        what: "an unknown byte at level 33 is COMMAND",
        file: "read",
        from: "return Err(Verdict::at_byte(DEPTH, at));",
        to: "let status = if FAULT && !matches!(command, 0x01..=0x0C) { COMMAND } else { DEPTH };
            return Err(Verdict::at_byte(status, at));",
    },
    Fault {
        what: "`14` to `17` in a script are ORDER where the command falls",
        file: "read",
        from: "let known = matches!(command, 0x10..=0x1B) && !(is_script && matches!(command, 0x14..=0x17));",
        to: "let falls = FAULT && command < before;
        let known = matches!(command, 0x10..=0x1B) && !(is_script && !falls && matches!(command, 0x14..=0x17));",
    },
    Fault {
        what: "a second `19` is taken",
        file: "read",
        from: "let second_function = command == 0x19 && has_function;",
        to: "let second_function = command == 0x19 && has_function && !FAULT;",
    },
    Fault {
        what: "trailing bytes are passed over",
        file: "read",
        from: "if cursor.at < bytes.len() {",
        to: "if cursor.at < bytes.len() && !FAULT {",
    },
    Fault {
        what: "blocks are judged before trailing bytes",
        file: "read",
        from: "let block_places = cursor.records(&mut unit)?;",
        to: "let block_places = cursor.records(&mut unit)?;
    if FAULT {
        judge_blocks(&unit, &block_places)?;
    }",
    },
    Fault {
        what: "a number that is cut is SHORT at its first byte",
        file: "read",
        from: "None => Err(Verdict::at_byte(SHORT, self.bytes.len())),",
        to: "None => Err(Verdict::at_byte(SHORT, if FAULT { self.at } else { self.bytes.len() })),",
    },
    Fault {
        what: "a phantom byte may be 2",
        file: "read",
        from: "self.counted(|cursor| Ok(cursor.byte_up_to(1)? == 1))?",
        to: "self.counted(|cursor| Ok(cursor.byte_up_to(1 + u8::from(FAULT))? == 1))?",
    },
    Fault {
        what: "an index of `19` is judged after all three are read",
        file: "read",
        from: "if usize::from(index) >= signatures {",
        to: "if usize::from(index) >= signatures {
            if FAULT && self.at + 4 > self.bytes.len() {
                return Err(Verdict::at_byte(SHORT, self.bytes.len()));
            }",
    },
    // ── abilities ──
    Fault {
        what: "key passes through a struct",
        file: "file_format",
        from: "Self::Key => AbilitySet::EMPTY,",
        to: "Self::Key => if FAULT { AbilitySet::EMPTY | Ability::Key } else { AbilitySet::EMPTY },",
    },
    Fault {
        what: "phantom arguments count",
        file: "file_format",
        from: ".filter(|(_, is_phantom)| !is_phantom)",
        to: ".filter(|(_, is_phantom)| !is_phantom || FAULT)",
    },
    Fault {
        what: "a vector has its abilities whatever its element",
        file: "binary_views",
        from: "vec![false],",
        to: "vec![FAULT],",
    },
    Fault {
        what: "lengths are compared before the arguments are walked",
        file: "binary_views",
        from: "let declared_abilities = sh.abilities;",
        to: "if FAULT && sh.type_parameters.len() != type_args.len() {
                    return Err(PartialVMError::new(StatusCode::VERIFIER_INVARIANT_VIOLATION));
                }
                let declared_abilities = sh.abilities;",
    },
    Fault {
        what: "a reference's abilities are looked for inside it",
        file: "binary_views",
        from: "Reference(_) | MutableReference(_) => Ok(AbilitySet::REFERENCES),",
        to: "Reference(t) | MutableReference(t) => {
                if FAULT {
                    self.abilities(t, constraints)?;
                }
                Ok(AbilitySet::REFERENCES)
            }",
    },
    // ── substitution ──
    Fault {
        what: "a struct with no arguments is materialized as an instantiation",
        file: "type_safety",
        from: "if type_args.is_empty() {",
        to: "if type_args.is_empty() && !FAULT {",
    },
    Fault {
        what: "an empty list leaves type parameters as they are",
        file: "type_safety",
        from: "subst.0[*idx as usize].clone()",
        to: "if FAULT && subst.is_empty() { token.clone() } else { subst.0[*idx as usize].clone() }",
    },
    Fault {
        what: "the first local after the parameters is looked for among them",
        file: "type_safety",
        from: "if idx < self.param_count {",
        to: "if idx < self.param_count || (FAULT && idx == self.param_count) {",
    },
    // ── operands ──
    Fault {
        what: "Pop asks for no drop",
        file: "type_safety",
        from: "if !abilities?.has_drop() {",
        to: "if !abilities?.has_drop() && !FAULT {",
    },
    Fault {
        what: "Shl may take its u8 from below",
        file: "type_safety",
        from: "if operand2.is_integer() && operand1 == ST::U8 {",
        to: "let swapped = FAULT && operand1.is_integer() && operand2 == ST::U8;
            if swapped || (operand2.is_integer() && operand1 == ST::U8) {",
    },
    Fault {
        what: "Eq asks the abilities of the lower operand",
        file: "type_safety",
        from: "if verifier.abilities(&operand1)?.has_drop() && operand1 == operand2 {",
        to: "if verifier.abilities(if FAULT { &operand2 } else { &operand1 })?.has_drop() && operand1 == operand2 {",
    },
    Fault {
        what: "StLoc looks its local up before it pops",
        file: "type_safety",
        from: "Bytecode::StLoc(idx) => {",
        to: "Bytecode::StLoc(idx) => {
            if FAULT {
                verifier.local_at(*idx);
            }",
    },
    Fault {
        what: "Ret asks that the stack be empty after it",
        file: "type_safety",
        from: "return Err(verifier.error(StatusCode::RET_TYPE_MISMATCH_ERROR, offset));
                }
            }
",
        to: "return Err(verifier.error(StatusCode::RET_TYPE_MISMATCH_ERROR, offset));
                }
            }
            if FAULT && !verifier.stack.is_empty() {
                return Err(verifier.error(StatusCode::RET_TYPE_MISMATCH_ERROR, offset));
            }
",
    },
    Fault {
        what: "ReadRef asks for drop in place of copy",
        file: "type_safety",
        from: "if !verifier.abilities(&inner)?.has_copy() {",
        to: "let set = verifier.abilities(&inner)?;
                    if !(if FAULT { set.has_drop() } else { set.has_copy() }) {",
    },
    Fault {
        what: "WriteRef compares before it asks for drop",
        file: "type_safety",
        from: "if !verifier.abilities(&ref_inner_signature)?.has_drop() {",
        to: "if FAULT && val_operand != ref_inner_signature {
                return Err(verifier.error(StatusCode::WRITEREF_TYPE_MISMATCH_ERROR, offset));
            }
            if !verifier.abilities(&ref_inner_signature)?.has_drop() {",
    },
    Fault {
        what: "a mutable reference in a local may be borrowed",
        file: "type_safety",
        from: "if loc_signature.is_reference() {",
        to: "if loc_signature.is_reference() && !(FAULT && loc_signature.is_mutable_reference()) {",
    },
    // ── fields and globals ──
    Fault {
        what: "MutBorrowField takes an immutable reference",
        file: "type_safety",
        from: "if mut_ && !operand.is_mutable_reference() {",
        to: "if mut_ && !FAULT && !operand.is_mutable_reference() {",
    },
    Fault {
        what: "a field of a native struct is 18",
        file: "type_safety",
        from: "return Err(verifier.error(StatusCode::BORROWFIELD_BAD_FIELD_ERROR, offset));",
        to: "if FAULT {
                return Err(verifier.error(StatusCode::BORROWFIELD_TYPE_MISMATCH_ERROR, offset));
            }
            return Err(verifier.error(StatusCode::BORROWFIELD_BAD_FIELD_ERROR, offset));",
    },
    Fault {
        what: "borrow_global tests key before the address",
        file: "type_safety",
        from: "    // check and consume top of stack\n",
        to: "    if FAULT {
        let struct_def = verifier.resolver.struct_def_at(idx)?;
        let struct_type = materialize_type(struct_def.struct_handle, type_args);
        if !verifier.abilities(&struct_type)?.has_key() {
            return Err(verifier.error(StatusCode::BORROWGLOBAL_WITHOUT_KEY_ABILITY, offset));
        }
    }
",
    },
    Fault {
        what: "Exists pops before it tests key",
        file: "type_safety",
        from: "fn exists(
    verifier: &mut TypeSafetyChecker,
    offset: CodeOffset,
    struct_def: &StructDefinition,
    type_args: &Signature,
) -> PartialVMResult<()> {
",
        to: "fn exists(
    verifier: &mut TypeSafetyChecker,
    offset: CodeOffset,
    struct_def: &StructDefinition,
    type_args: &Signature,
) -> PartialVMResult<()> {
    if FAULT {
        let operand = verifier.stack.pop().unwrap();
        verifier.stack.push(operand);
    }
",
    },
    Fault {
        what: "MoveFrom of what is no address is 27",
        file: "type_safety",
        from: "return Err(verifier.error(StatusCode::MOVEFROM_TYPE_MISMATCH_ERROR, offset));",
        to: "if FAULT {
            return Err(verifier.error(StatusCode::MOVEFROM_WITHOUT_KEY_ABILITY, offset));
        }
        return Err(verifier.error(StatusCode::MOVEFROM_TYPE_MISMATCH_ERROR, offset));",
    },
    Fault {
        what: "MoveTo takes any immutable reference for the signer's",
        file: "type_safety",
        from: "ST::Signer => Ok(()),",
        to: "_ if FAULT => Ok(()),
            ST::Signer => Ok(()),",
    },
    // ── calls and structs ──
    Fault {
        what: "Call compares its arguments from the first",
        file: "type_safety",
        from: "for parameter in parameters.0.iter().rev() {",
        to: "let mut in_order: Vec<&SignatureToken> = parameters.0.iter().rev().collect();
    if FAULT {
        in_order.reverse();
    }
    for parameter in in_order {",
    },
    Fault {
        what: "Call looks its returns up before it pops",
        file: "type_safety",
        from: "let parameters = verifier.resolver.signature_at(function_handle.parameters);",
        to: "let parameters = verifier.resolver.signature_at(function_handle.parameters);
    if FAULT {
        verifier.resolver.signature_at(function_handle.return_);
    }",
    },
    Fault {
        what: "Unpack instantiates its fields before it pops",
        file: "type_safety",
        from: "    // Pop an abstract value from the stack and check if its type is equal to the one\n",
        to: "    if FAULT {
        type_fields_signature(verifier, offset, struct_def, type_args)?;
    }
",
    },
    Fault {
        what: "Pack compares its fields from the first",
        file: "type_safety",
        from: "for sig in field_sig.0.iter().rev() {",
        to: "let mut in_order: Vec<&SignatureToken> = field_sig.0.iter().rev().collect();
    if FAULT {
        in_order.reverse();
    }
    for sig in in_order {",
    },
    // ── vectors ──
    Fault {
        what: "VecPack compares what it takes",
        file: "type_safety",
        from: "                verifier.stack.pop().unwrap();\n            }\n            verifier\n",
        to: "                let operand = verifier.stack.pop().unwrap();
                if FAULT && operand != *element_type {
                    return Err(verifier.error(StatusCode::TYPE_MISMATCH, offset));
                }
            }
            verifier
",
    },
    Fault {
        what: "VecPushBack looks its signature up before it pops",
        file: "type_safety",
        from: "let operand_elem = verifier.stack.pop().unwrap();",
        to: "if FAULT {
                let _ = &verifier.resolver.signature_at(*idx).0[0];
            }
            let operand_elem = verifier.stack.pop().unwrap();",
    },
    Fault {
        what: "VecSwap looks its signature up before it tests the indexes",
        file: "type_safety",
        from: "if operand_idx1 != ST::U64 || operand_idx2 != ST::U64 {",
        to: "if FAULT {
                let _ = &verifier.resolver.signature_at(*idx).0[0];
            }
            if operand_idx1 != ST::U64 || operand_idx2 != ST::U64 {",
    },
    Fault {
        what: "VecImmBorrow takes an index of u8",
        file: "type_safety",
        from: "    // check index\n    if operand_idx != ST::U64 {",
        to: "    if operand_idx != ST::U64 && !(FAULT && operand_idx == ST::U8) {",
    },
    Fault {
        what: "VecPushBack takes an immutable reference",
        file: "type_safety",
        from: "            if mut_ref_only {\n                None",
        to: "            if mut_ref_only && !FAULT {\n                None",
    },
    Fault {
        what: "VecUnpack leaves one element too few",
        file: "type_safety",
        from: "            for _ in 0..*num {\n                verifier.stack.push(",
        to: "            for _ in u64::from(FAULT)..*num {\n                verifier.stack.push(",
    },
    // ── stack usage ──
    Fault {
        what: "14 carries the instruction's offset",
        file: "stack_usage_verifier",
        from: ".at_code_offset(self.current_function(), block_start),\n                );",
        to: ".at_code_offset(self.current_function(), if FAULT { i } else { block_start }),\n                );",
    },
    Fault {
        what: "only the block at 0 must end at height 0",
        file: "stack_usage_verifier",
        from: "if stack_size_increment == 0 {",
        to: "if stack_size_increment == 0 || (FAULT && block_start != 0) {",
    },
    Fault {
        what: "VecSwap pops two",
        file: "stack_usage_verifier",
        from: "Bytecode::VecSwap(_) => (3, 0),",
        to: "Bytecode::VecSwap(_) => (if FAULT { 2 } else { 3 }, 0),",
    },
    Fault {
        what: "stack usage looks up the type arguments of CallGeneric",
        file: "stack_usage_verifier",
        from: "let func_inst = self.resolver.function_instantiation_at(*idx);",
        to: "let func_inst = self.resolver.function_instantiation_at(*idx);
                if FAULT {
                    self.resolver.signature_at(func_inst.type_parameters);
                }",
    },
];
