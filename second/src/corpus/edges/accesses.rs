//! Loads and stores at the end of memory and around it; code at the end of memory.

use crate::corpus::build::{edge, LENGTH};
use crate::corpus::Case;
use crate::state::{hwdbg, psw};
use crate::step::Access;

pub fn cases() -> Vec<Case> {
    [data(), alignment(), ldrpc(), code(), longest()].concat()
}

/// The mnemonics of the loads and stores, and their sizes.
pub(super) const ACCESSES: [(&str, u32); 6] =
    [("ldr", 4), ("ldrh", 2), ("ldrb", 1), ("str", 4), ("strh", 2), ("strb", 1)];

/// Each access at the last place, and at the address equal to the length.
fn data() -> Vec<Case> {
    let mut cases = Vec::new();
    for (name, size) in ACCESSES {
        let access = |what: &str, base| {
            edge(format!("{name} {what}"), &[(name, &[3, 0, 5])]).register(5, base)
        };
        cases.push(access("at the last place of memory", LENGTH - size));
        cases.push(access("at the last address, aligned down", LENGTH - 1));
        let outside = |what: &str, base| access(what, base).bus_error(Access::Data);
        cases.push(outside("at the address equal to the length", LENGTH));
        cases.push(outside("at 65,536", 65_536));
        cases.push(outside("at 2^31", 0x8000_0000));
        cases.push(outside("at 2^32 - 1", u32::MAX));
    }
    cases
}

/// The offset counts units, the sum wraps, and alignment comes after it.
fn alignment() -> Vec<Case> {
    let mut cases = Vec::new();
    for (name, size) in ACCESSES {
        let units = |what: &str, units, base| {
            edge(format!("{name} {what}"), &[(name, &[3, units, 5])]).register(5, base)
        };
        cases.push(units("counts units of its size", 2, 0x20));
        cases.push(units("aligns after the sum", 1, 0x23));
        cases.push(units("aligns after the sum of 15 units", 15, 3));
        cases.push(units("wraps at 2^32", 3, 0u32.wrapping_sub(2 * size)));
        cases.push(units("wraps at 2^32 and aligns", 3, 0u32.wrapping_sub(2 * size + 1)));
        let outside = units("reaches the length by its offset", 15, LENGTH - 15 * size);
        cases.push(outside.bus_error(Access::Data));
    }
    cases.push(edge("ldr into its own base", &[("ldr", &[5, 0, 5])]).register(5, 0x20));
    cases.push(edge("str of its own base", &[("str", &[5, 0, 5])]).register(5, 0x20));
    let own = edge("str over the next instruction", &[("str", &[3, 0, 5]), ("movi", &[1, 1])]);
    cases.push(own.register(5, 0).register(3, 0x7110_7142).steps(2));
    cases
}

/// "0x4011 at 0x102 loads from 0x104", and ldrpc at the end.
fn ldrpc() -> Vec<Case> {
    let at = |name: &str, pc, units| edge(name, &[]).at(pc, &[("ldrpc", &[3, units])]).pc(pc);
    vec![
        edge("0x4011 at 0x102 loads from 0x104", &[])
            .length(0x108)
            .bytes_at(0x102, &[0x40, 0x11])
            .pc(0x102),
        at("ldrpc at an address divisible by 4", 8, 1),
        at("ldrpc at an address not divisible by 4", 10, 1),
        at("ldrpc of itself", 10, 0),
        at("ldrpc of the last word", 0, 15),
        at("ldrpc of the last word from an unaligned place", 2, 15),
        at("ldrpc at the address equal to the length", 0, 16).bus_error(Access::Data),
        at("ldrpc of the longest offset", 0, 255).bus_error(Access::Data),
    ]
}

/// A movi at the end completes; the next step fetches outside unless something is entered.
fn code() -> Vec<Case> {
    let at_the_end =
        |name: &str| edge(name, &[]).at(LENGTH - 2, &[("movi", &[1, 16])]).pc(LENGTH - 2).steps(2);
    vec![
        at_the_end("a movi at the end completes").steps(1),
        at_the_end("a movi at the end, then the next step").bus_error(Access::Fetch),
        at_the_end("a movi at the end, then an external entry")
            .psw(psw::IE | 1 << psw::ENABLE_SHIFT)
            .lines(&[0, 1]),
        at_the_end("a movi at the end, then a timer entry")
            .psw(psw::IE | psw::TE)
            .state(|state| state.timer = 1),
        at_the_end("a movi at the end, then a breakpoint")
            .state(|state| (state.bp0, state.hwdbg) = (LENGTH, 3 | hwdbg::BP0)),
        edge("a load at the end under a watchpoint", &[])
            .at(LENGTH - 2, &[("ldr", &[3, 0, 5])])
            .pc(LENGTH - 2)
            .register(5, 0x20)
            .state(|state| (state.wp0, state.hwdbg) = (0x20, 3 | hwdbg::WP0)),
        edge("a swint at the end", &[]).at(LENGTH - 2, &[("swint", &[9])]).pc(LENGTH - 2),
    ]
}

/// The same in the shortest and, after a long jump, in the longest memory.
fn longest() -> Vec<Case> {
    let end = |name: &str, length: u32| {
        edge(name, &[])
            .length(length)
            .at(length - 2, &[("ldrh", &[3, 0, 5])])
            .register(5, length - 1)
            .pc(length - 2)
    };
    vec![
        end("the last two bytes of 4", 4).steps(2).bus_error(Access::Fetch),
        end("the last two bytes of 65,536", 65_536)
            .at(0, &[("jl", &[32_762])])
            .at(65_524, &[("str", &[3, 2, 6]), ("ldrb", &[7, 0, 5]), ("jrl", &[8])])
            .at(65_530, &[("ldrpc", &[9, 0]), ("strh", &[8, 15, 6])])
            .register(6, 65_471)
            .register(8, 65_531)
            .pc(0)
            .steps(8)
            .bus_error(Access::Fetch),
    ]
}
