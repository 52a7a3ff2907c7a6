//! The functions of libol_sim_c.a for Rust: include/ol_sim.h says what each answers and writes, and what it asks of its caller. Take it as a module.
//! References and slices keep its rules on pointers, lengths and overlap; stack and floating-point environment are left to the caller.
#![allow(dead_code)]

/// Bytes of stack that a call may take: the header's `enum ol_sim_stack`. A thread with less may crash.
pub const OL_SIM_LENGTHS_STACK: usize = 384 * 1024;
pub const OL_SIM_ADMIT_STACK: usize = 384 * 1024;
pub const OL_SIM_ORDER_STACK: usize = 32 * 1024;
pub const OL_SIM_START_STACK: usize = 384 * 1024;
pub const OL_SIM_CYCLE_STACK: usize = 6144 * 1024;

/// The longest inputs and the longest values, in bytes: those of the header's `enum ol_sim_length`. An array has a cell for each element, the first element's first.
pub const OL_SIM_INPUTS_MAX: usize = 9216;
pub const OL_SIM_VALUES_MAX: usize = 32256;

/// The number of a file that is refused for its arrays, judged behind 10: the header's `OL_SIM_SHAPE`.
pub const OL_SIM_SHAPE: u8 = 22;

/// The numbers of a stopped cycle: those of the header's `enum ol_sim_number`.
pub const OL_SIM_COLD_PRE: u8 = 18;
pub const OL_SIM_OVERFLOW: u8 = 19;
pub const OL_SIM_RANGE: u8 = 20;
pub const OL_SIM_KIND: u8 = 21;

/// Whether a number of `ol_sim_cycle` is that of a stopped cycle: the header's `OL_SIM_STOPPED`.
pub const fn ol_sim_stopped(number: u8) -> bool {
    matches!(number, OL_SIM_COLD_PRE..=OL_SIM_KIND)
}

extern "C" {
    pub fn ol_sim_lengths(
        file: *const u8,
        file_len: usize,
        node: usize,
        place: *mut usize,
        state_len: *mut usize,
        inputs_len: *mut usize,
        values_len: *mut usize,
        equations: *mut usize,
    ) -> u8;
    pub fn ol_sim_admit(file: *const u8, file_len: usize, place: *mut usize, state_len: *mut usize) -> u8;
    pub fn ol_sim_order(file: *const u8, file_len: usize, node: usize, order: *mut usize, order_len: usize, place: *mut usize) -> u8;
    pub fn ol_sim_start(file: *const u8, file_len: usize, state: *mut u8, state_len: usize, place: *mut usize) -> u8;
    pub fn ol_sim_cycle(
        file: *const u8,
        file_len: usize,
        old_state: *const u8,
        old_len: usize,
        inputs: *const u8,
        inputs_len: usize,
        new_state: *mut u8,
        new_len: usize,
        values: *mut u8,
        values_len: usize,
        place: *mut usize,
    ) -> u8;
}
