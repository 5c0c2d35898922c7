//! The named edges of document 01 with a few things changed.

use second::state::psw;

use super::{code, state, tape, Cases, Draft};
use crate::random::Random;

impl Cases {
    pub(super) fn edge(&self, random: &mut Random) -> Draft {
        let edges = if random.once_in(200) { &self.long_edges } else { &self.edges };
        let edge = &edges[random.below(edges.len() as u32) as usize];
        let mut draft = Draft {
            state: edge.state.clone(),
            memory: edge.memory.clone(),
            marks: edge.marks.clone(),
            tape: edge.tape.clone(),
            budget: edge.budget.into(),
        };
        for _ in 0..random.below(4) {
            self.change(random, &mut draft);
        }
        draft
    }

    /// Changes one thing.
    fn change(&self, random: &mut Random, draft: &mut Draft) {
        let length = draft.memory.len();
        let place = random.below(length.max(1) as u32) as usize;
        let state = &mut draft.state;
        let register = random.below(16) as usize;
        match random.below(12) {
            0 => state.registers[register].value = state::value(random, length.max(4) as u32),
            1 => state.registers[register].value = state::corner(random),
            2 => state.registers[register].marked ^= true,
            3 => state.psw ^= 1 << random.below(32) & !psw::TR,
            4 => (state.tf_marked, state.cy_marked) = (random.once_in(2), random.once_in(2)),
            5 => state.hwdbg ^= 1 << (2 + random.below(7)),
            6 => state.pc = state.pc.wrapping_add(random.pick(&[2, 4, 6, 0xffff_fffe])),
            7 => (state.timer, state.pending) = (random.pick(&[0, 1, 2, 3, 4, 6]), false),
            8 => {
                let bit = 1 << random.below(8);
                draft.memory.get_mut(place).into_iter().for_each(|byte| *byte ^= bit);
            }
            9 => {
                let bit = 1 << (place % 8);
                draft.marks.get_mut(place / 8).into_iter().for_each(|byte| *byte ^= bit);
            }
            10 => {
                let address = place as u32 & !1;
                code::place_what_fits(&mut draft.memory, address, self.code.any(random));
            }
            _ => {
                let more = random.below(16) as usize;
                draft.tape.extend(tape(random, more));
                draft.budget = draft.tape.len() as u64;
            }
        }
    }
}
