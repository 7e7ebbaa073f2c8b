//! The C functions as they are; each slice is a pointer and a length.
//!
//! # Safety
//!
//! A pointer is that of a slice of the length that follows it, and a slice that is written to
//! shares no element with another. A position is aligned and not null, and shares no memory with a
//! slice.

/// A layer, and a state of it; the default is the start.
#[repr(C)]
#[derive(Clone, Copy, Debug, Default, PartialEq, Eq)]
pub struct Position {
    pub layer: usize,
    pub state: usize,
}

/// A record of the list that folding is lent: room for one node of a decision diagram. It may hold
/// anything before a call.
#[repr(C)]
#[derive(Clone, Copy, Debug, Default, PartialEq, Eq)]
pub struct Node {
    pub level: u32,
    pub low: u32,
    pub high: u32,
}

extern "C" {
    pub fn tff_check_circuit(
        circuit: *const u8,
        circuit_len: usize,
        answer: *mut u64,
        answer_len: usize,
    );

    pub fn tff_simulate(
        circuit: *const u8,
        circuit_len: usize,
        count: usize,
        words: *const u16,
        words_len: usize,
        result: *mut u16,
        result_len: usize,
        answer: *mut u64,
        answer_len: usize,
    );

    pub fn tff_fold(
        circuit: *const u8,
        circuit_len: usize,
        scratch: *mut u16,
        scratch_len: usize,
        nodes: *mut Node,
        nodes_len: usize,
        result: *mut u8,
        result_len: usize,
        answer: *mut u64,
        answer_len: usize,
    );

    pub fn tff_ask(
        circuit: *const u8,
        circuit_len: usize,
        scratch: *mut u16,
        scratch_len: usize,
        nodes: *mut Node,
        nodes_len: usize,
        answer: *mut u64,
        answer_len: usize,
    );

    pub fn tff_commit(
        circuit: *const u8,
        circuit_len: usize,
        plan: *const u64,
        plan_len: usize,
        scratch: *mut u16,
        scratch_len: usize,
        nodes: *mut Node,
        nodes_len: usize,
        result: *mut u8,
        result_len: usize,
        answer: *mut u64,
        answer_len: usize,
    );

    pub fn tff_spread(
        network: *const u8,
        network_len: usize,
        n: u16,
        m: u16,
        t: u16,
        input_places: *const u16,
        input_places_len: usize,
        output_places: *const u16,
        output_places_len: usize,
        scratch: *mut u16,
        scratch_len: usize,
        nodes: *mut Node,
        nodes_len: usize,
        result: *mut u8,
        result_len: usize,
        answer: *mut u64,
        answer_len: usize,
    );

    pub fn tff_check_table(table: *const u8, table_len: usize, answer: *mut u64, answer_len: usize);

    pub fn tff_run(
        table: *const u8,
        table_len: usize,
        words: *const u16,
        words_len: usize,
        result: *mut u16,
        result_len: usize,
        answer: *mut u64,
        answer_len: usize,
    );

    pub fn tff_view(
        table: *const u8,
        table_len: usize,
        mask: u16,
        words: *const u16,
        words_len: usize,
        result: *mut u16,
        result_len: usize,
        answer: *mut u64,
        answer_len: usize,
    );

    pub fn tff_layer_outputs(
        table: *const u8,
        table_len: usize,
        layer: u16,
        answer: *mut u64,
        answer_len: usize,
    );

    pub fn tff_step(
        table: *const u8,
        table_len: usize,
        layer: u16,
        state: u16,
        word: u16,
        answer: *mut u64,
        answer_len: usize,
    );

    pub fn tff_quiet_step(
        table: *const u8,
        table_len: usize,
        windows: *const u16,
        windows_len: usize,
        minute: u16,
        position: *mut Position,
        word: u16,
        answer: *mut u64,
        answer_len: usize,
    );

    pub fn tff_price(table: *const u8, table_len: usize, answer: *mut u64, answer_len: usize);

    pub fn tff_reach(
        table: *const u8,
        table_len: usize,
        result: *mut u8,
        result_len: usize,
        answer: *mut u64,
        answer_len: usize,
    );

    pub fn tff_distinguish(
        table: *const u8,
        table_len: usize,
        layer: u16,
        first: u16,
        second: u16,
        result: *mut u16,
        result_len: usize,
        answer: *mut u64,
        answer_len: usize,
    );

    pub fn tff_merge(
        table: *const u8,
        table_len: usize,
        result: *mut u8,
        result_len: usize,
        answer: *mut u64,
        answer_len: usize,
    );

    pub fn tff_unfold(
        table: *const u8,
        table_len: usize,
        result: *mut u8,
        result_len: usize,
        answer: *mut u64,
        answer_len: usize,
    );
}
