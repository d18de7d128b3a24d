//! The C functions, declared as in include/azwukran.h. They keep nothing between calls and write nothing but `out`. Those
//! of numbers alone are safe to call; the others want each pointer to be good for the length that follows it.

use crate::answers::{
    ChosenAnswer, ConsensusAnswer, MaskAnswer, RegularAnswer, RuleAnswer, RunAnswer, TextAnswer, TypeAnswer,
};

unsafe extern "C" {
    pub fn azwukran_call(
        function: u8,
        types: *const u8,
        n: usize,
        marks: *const u8,
        m: usize,
        concrete_only: u8,
    ) -> ChosenAnswer;
    pub fn azwukran_survivors(
        function: u8,
        types: *const u8,
        n: usize,
        marks: *const u8,
        m: usize,
        concrete_only: u8,
        out: *mut u8,
        room: usize,
    ) -> MaskAnswer;
    pub safe fn azwukran_rule(function: u8, index: u8) -> RuleAnswer;
    pub fn azwukran_consensus(base: u8, components: *const u8, n: usize) -> ConsensusAnswer;
    pub fn azwukran_type(bytes: *const u8, n: usize, concrete_only: u8, out: *mut u8, room: usize) -> TypeAnswer;
    pub fn azwukran_read_text(text: *const u8, n: usize, out: *mut u8, room: usize) -> TextAnswer;
    pub fn azwukran_write_text(bytes: *const u8, n: usize, out: *mut u8, room: usize) -> TextAnswer;
    pub fn azwukran_run(sheet: *const u8, n: usize) -> RunAnswer;
    pub safe fn azwukran_regular_arg_shape(
        arity: u8,
        constructors: u16,
        scalars: u16,
        conclusion: u8,
        index: usize,
        type_code: u8,
    ) -> RegularAnswer;
    pub safe fn azwukran_regular_arg_number(
        arity: u8,
        constructors: u16,
        scalars: u16,
        conclusion: u8,
        index: usize,
        type_code: u8,
    ) -> RegularAnswer;
    pub safe fn azwukran_regular_concrete_only(
        arity: u8,
        constructors: u16,
        scalars: u16,
        conclusion: u8,
    ) -> RegularAnswer;
    pub safe fn azwukran_regular_preferred(arity: u8, constructors: u16, scalars: u16, conclusion: u8) -> RuleAnswer;
    pub safe fn azwukran_regular_rule(
        arity: u8,
        constructors: u16,
        scalars: u16,
        conclusion: u8,
        index: u8,
    ) -> RuleAnswer;
    pub fn azwukran_list_arg_shape(
        rules: *const u8,
        n: usize,
        members: *const u8,
        m: usize,
        index: usize,
        type_code: u8,
        out: *mut u8,
        room: usize,
    ) -> MaskAnswer;
    pub fn azwukran_list_arg_number(
        rules: *const u8,
        n: usize,
        members: *const u8,
        m: usize,
        index: usize,
        type_code: u8,
        out: *mut u8,
        room: usize,
    ) -> MaskAnswer;
    pub fn azwukran_list_concrete_only(
        rules: *const u8,
        n: usize,
        members: *const u8,
        m: usize,
        out: *mut u8,
        room: usize,
    ) -> MaskAnswer;
    pub fn azwukran_list_preferred(rules: *const u8, n: usize, members: *const u8, m: usize) -> ChosenAnswer;
}
