//! A unit's listed blocks as the control flow graph that `verify_block` asks. A block's id is its place in the list, so
//! that blocks may overlap and repeat.
use crate::control_flow_graph::{BlockId, ControlFlowGraph};
use crate::file_format::CodeOffset;
use unit::tables::Block;

pub struct ListedBlocks<'a>(pub &'a [Block]);

impl ControlFlowGraph for ListedBlocks<'_> {
    fn block_start(&self, block_id: BlockId) -> CodeOffset {
        self.0[usize::from(block_id)].first
    }

    fn block_end(&self, block_id: BlockId) -> CodeOffset {
        self.0[usize::from(block_id)].last
    }

    fn instr_indexes(&self, block_id: BlockId) -> Box<dyn Iterator<Item = CodeOffset>> {
        Box::new(self.block_start(block_id)..=self.block_end(block_id))
    }

    fn blocks(&self) -> Vec<BlockId> {
        (0..self.num_blocks()).collect()
    }

    fn num_blocks(&self) -> u16 {
        // A block record has 5 bytes of the unit's 32,768.
        self.0.len() as u16
    }

    fn successors(&self, _: BlockId) -> &Vec<BlockId> {
        unreachable!("no pass follows a jump")
    }

    fn next_block(&self, _: BlockId) -> Option<CodeOffset> {
        unreachable!("no pass follows a jump")
    }

    fn entry_block_id(&self) -> BlockId {
        unreachable!("no pass follows a jump")
    }

    fn is_loop_head(&self, _: BlockId) -> bool {
        unreachable!("no pass follows a jump")
    }

    fn is_back_edge(&self, _: BlockId, _: BlockId) -> bool {
        unreachable!("no pass follows a jump")
    }
}
