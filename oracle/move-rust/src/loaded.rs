//! A unit in the Rust's structures, ready to be asked.
use crate::binary_views::{BinaryIndexedView, FunctionView};
use crate::bytecode::bytecode;
use crate::errors::PartialVMError;
use crate::file_format::*;
use crate::{stack_usage_verifier, tables, type_safety};
use unit::tables::Block;
use unit::verdict::number::{HEIGHT, OUT_OF_TABLE};
use unit::{Position, Unit, Verdict};

/// A unit that was read, as the tables of a module or a script, with its function, its code and its listed blocks.
pub struct Loaded {
    /// The module; of a script only the signatures, for the function's view.
    module: CompiledModule,
    script: Option<CompiledScript>,
    handle: FunctionHandle,
    code: CodeUnit,
    /// A body of one Ret with the function's locals. The view builds a control flow graph of the body that it is given,
    /// which need not exist for the unit's code; the walks go over the unit's code and blocks instead.
    stub: CodeUnit,
    blocks: Vec<Block>,
}

/// A unit with the views that the passes ask, made once, for timing the passes alone.
pub struct Viewed<'a> {
    loaded: &'a Loaded,
    resolver: BinaryIndexedView<'a>,
    view: FunctionView<'a>,
}

/// How the type pass ended.
pub struct Walked {
    pub verdict: Verdict,
    /// How many instructions were walked before the refused one.
    pub steps: usize,
    /// The most that the stack weighed after one of them.
    pub heaviest: usize,
}

impl Loaded {
    pub fn new(unit: &Unit) -> Loaded {
        let (module, script) = if unit.is_script {
            let carrier =
                CompiledModule { signatures: tables::signatures(unit), ..CompiledModule::default() };
            (carrier, Some(tables::script(unit)))
        } else {
            (tables::module(unit), None)
        };
        let locals = SignatureIndex(unit.function.locals);
        Loaded {
            module,
            script,
            handle: tables::function_handle(unit),
            code: CodeUnit { locals, code: unit.code.iter().map(bytecode).collect() },
            stub: CodeUnit { locals, code: vec![Bytecode::Ret] },
            blocks: unit.blocks.clone(),
        }
    }

    /// The stack usage pass over the listed blocks.
    pub fn stack_usage(&self) -> Verdict {
        self.stack_usage_over(&self.blocks)
    }

    /// The type pass over the listed blocks, with an area of that length.
    pub fn types(&self, area: usize) -> Walked {
        self.with_views(&self.stub, |resolver, view| {
            type_safety::walk::walk(resolver, view, &self.code.code, &self.blocks, area)
        })
    }

    /// The offset of the instruction at which stack usage gives its verdict, where one instruction does (11, 13, 14 and
    /// 16): the end of the shortest front of the refused block that is refused alike. For counting only.
    pub fn stack_usage_culprit(&self, verdict: Verdict) -> Option<u16> {
        let has_culprit = matches!(verdict.number, OUT_OF_TABLE | HEIGHT | 14 | 16);
        let refused = |block: &Block| self.stack_usage_over(&[*block]) == verdict;
        let block = self.blocks.iter().find(|&block| has_culprit && refused(block))?;
        (block.first..=block.last).find(|&last| refused(&Block { first: block.first, last }))
    }

    fn stack_usage_over(&self, blocks: &[Block]) -> Verdict {
        self.with_views(&self.stub, |resolver, view| {
            stack_usage_verifier::walk::walk(resolver, view, &self.code, blocks)
        })
    }

    /// The function's body, its proper code.
    pub(crate) fn code(&self) -> &CodeUnit {
        &self.code
    }

    /// Asks with the unit's resolver and a view of its function. A script's view is made like a module's, so that it
    /// has the return signature that its `19` names; the repository's own has an empty one.
    pub(crate) fn with_views<R>(
        &self,
        code: &CodeUnit,
        ask: impl FnOnce(&BinaryIndexedView, &FunctionView) -> R,
    ) -> R {
        let Viewed { resolver, view, .. } = self.viewed_with(code);
        ask(&resolver, &view)
    }

    /// The unit with its views.
    pub fn viewed(&self) -> Viewed<'_> {
        self.viewed_with(&self.stub)
    }

    fn viewed_with<'a>(&'a self, code: &'a CodeUnit) -> Viewed<'a> {
        let resolver = match &self.script {
            Some(script) => BinaryIndexedView::Script(script),
            None => BinaryIndexedView::Module(&self.module),
        };
        let view = FunctionView::function(&self.module, FunctionDefinitionIndex(0), code, &self.handle);
        Viewed { loaded: self, resolver, view }
    }
}

impl Viewed<'_> {
    /// Whether both passes accept the unit. Nothing is caught and nothing is weighed: a panic of the Rust passes on.
    pub fn accepts(&self) -> bool {
        let Viewed { loaded, resolver, view } = self;
        let Loaded { code, blocks, .. } = loaded;
        stack_usage_verifier::walk::walk_bare(resolver, view, code, blocks).is_ok()
            && type_safety::walk::walk_bare(resolver, view, &code.code, blocks).is_ok()
    }
}

/// The number and the place that the Rust's error carries; `position` is the pass's letter.
pub(crate) fn verdict_of_error(error: PartialVMError, position: fn(u16) -> Position) -> Verdict {
    let number = error.major_status() as u8;
    let (.., offsets) = error.all_data();
    match offsets.as_slice() {
        [] => Verdict { number, position: Position::None },
        [(_, offset)] => Verdict { number, position: position(*offset) },
        _ => panic!("the Rust gave {} more than one place", number),
    }
}
