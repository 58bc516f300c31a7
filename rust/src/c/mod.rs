//! The calls of `include/mapf.h`, which says what a caller has to ensure. Nothing checks that, so these are unsafe. The
//! work is done by the calls of `mapf_c`, to which the pointers and lengths of C come as slices.
#![allow(unsafe_code, clippy::too_many_arguments)]
#![warn(clippy::undocumented_unsafe_blocks)]

pub(crate) mod handle;

use crate::crates::mapf_c::{self, Answer, FaultNumbers, Question, ReplyNumbers, Solution, VisitNumbers};
use crate::rattle_std::alloc::Global;
use handle::Dispatcher;
use std::slice::{from_raw_parts, from_raw_parts_mut};

/// The items that a caller passes. Where there are none the pointer may be null, which no slice of Rust's may be.
///
/// # Safety
///
/// There are so many items from this place on, and nothing changes them meanwhile.
unsafe fn items<'a, T>(first: *const T, length: usize) -> &'a [T] {
    if first.is_null() || length == 0 {
        return &[];
    }
    // SAFETY: the caller ensures it.
    unsafe { from_raw_parts(first, length) }
}

/// The room of a caller for items. Where there is none the pointer may be null.
///
/// # Safety
///
/// There is room for so many items from this place on, and nothing else is done with it meanwhile. Nothing need have been
/// written there: the calls don't read it.
unsafe fn room<'a, T>(first: *mut T, length: usize) -> &'a mut [T] {
    if first.is_null() || length == 0 {
        return &mut [];
    }
    // SAFETY: the caller ensures it.
    unsafe { from_raw_parts_mut(first, length) }
}

#[unsafe(no_mangle)]
extern "C" fn mapf_version() -> u32 {
    mapf_c::mapf_version()
}

#[unsafe(no_mangle)]
unsafe extern "C" fn mapf_check(
    map: *const u8,
    map_length: usize,
    scen: *const u8,
    scen_length: usize,
    agents: u32,
    plan: *const u8,
    plan_length: usize,
    cert: *const u8,
    cert_length: usize,
) -> Answer {
    // SAFETY: the header asks for it.
    let (map, scen) = unsafe { (items(map, map_length), items(scen, scen_length)) };
    // SAFETY: the header asks for it.
    let (plan, cert) = unsafe { (items(plan, plan_length), items(cert, cert_length)) };
    mapf_c::mapf_check(Global, map, scen, agents, plan, cert)
}

#[unsafe(no_mangle)]
unsafe extern "C" fn mapf_validate(
    map: *const u8,
    map_length: usize,
    scen: *const u8,
    scen_length: usize,
    agents: u32,
    plan: *const u8,
    plan_length: usize,
) -> Answer {
    // SAFETY: the header asks for it.
    let (map, scen) = unsafe { (items(map, map_length), items(scen, scen_length)) };
    // SAFETY: the header asks for it.
    let plan = unsafe { items(plan, plan_length) };
    mapf_c::mapf_validate(Global, map, scen, agents, plan)
}

#[unsafe(no_mangle)]
unsafe extern "C" fn mapf_solve(
    map: *const u8,
    map_length: usize,
    scen: *const u8,
    scen_length: usize,
    question: Question,
    plan: *mut u8,
    plan_room: usize,
    cert: *mut u8,
    cert_room: usize,
) -> Solution {
    // SAFETY: the header asks for it.
    let (map, scen) = unsafe { (items(map, map_length), items(scen, scen_length)) };
    // SAFETY: the header asks for it.
    let (plan, cert) = unsafe { (room(plan, plan_room), room(cert, cert_room)) };
    mapf_c::mapf_solve(Global, map, scen, question, plan, cert)
}

#[unsafe(no_mangle)]
unsafe extern "C" fn mapf_dispatcher_new(
    dispatcher: &mut Dispatcher,
    map: *const u8,
    map_length: usize,
    scen: *const u8,
    scen_length: usize,
    agents: u32,
    plan: *const u8,
    plan_length: usize,
) -> FaultNumbers {
    // SAFETY: the header asks for it.
    let (map, scen) = unsafe { (items(map, map_length), items(scen, scen_length)) };
    // SAFETY: the header asks for it.
    let plan = unsafe { items(plan, plan_length) };
    mapf_c::mapf_dispatcher_new(Global, dispatcher, map, scen, agents, plan)
}

#[unsafe(no_mangle)]
unsafe extern "C" fn mapf_dispatcher_ask(
    dispatcher: &mut Dispatcher,
    agents: *const u32,
    count: usize,
    replies: *mut ReplyNumbers,
    replies_room: usize,
) -> usize {
    // SAFETY: the header asks for it.
    let (agents, replies) = unsafe { (items(agents, count), room(replies, replies_room)) };
    mapf_c::mapf_dispatcher_ask(Global, dispatcher, agents, replies)
}

#[unsafe(no_mangle)]
extern "C" fn mapf_dispatcher_visit(dispatcher: &mut Dispatcher, agent: u32, number: u32) -> VisitNumbers {
    mapf_c::mapf_dispatcher_visit(Global, dispatcher, agent, number)
}

#[unsafe(no_mangle)]
extern "C" fn mapf_dispatcher_free(dispatcher: &mut Dispatcher) {
    mapf_c::mapf_dispatcher_free(Global, dispatcher);
}
