//! Sets made by hand: Regular sets and Lists.

use crate::answers::{ChosenAnswer, MaskAnswer, Regular, RegularAnswer, RuleAnswer};
use crate::linked;

impl Regular {
    /// The set that the shape of an argument of this type at this index leaves.
    #[inline]
    pub fn arg_shape(self, index: usize, type_code: u8) -> RegularAnswer {
        let Regular { arity, constructors, scalars, conclusion } = self;
        linked::azwukran_regular_arg_shape(arity, constructors, scalars, conclusion, index, type_code)
    }

    /// The set that the number type of an argument of this type at this index leaves.
    #[inline]
    pub fn arg_number(self, index: usize, type_code: u8) -> RegularAnswer {
        let Regular { arity, constructors, scalars, conclusion } = self;
        linked::azwukran_regular_arg_number(arity, constructors, scalars, conclusion, index, type_code)
    }

    /// The set without abstract scalars.
    #[inline]
    pub fn concrete_only(self) -> RegularAnswer {
        let Regular { arity, constructors, scalars, conclusion } = self;
        linked::azwukran_regular_concrete_only(arity, constructors, scalars, conclusion)
    }

    /// The rule that the set prefers.
    #[inline]
    pub fn preferred(self) -> RuleAnswer {
        let Regular { arity, constructors, scalars, conclusion } = self;
        linked::azwukran_regular_preferred(arity, constructors, scalars, conclusion)
    }

    /// The rule at an index of the set's listing.
    #[inline]
    pub fn rule(self, index: u8) -> RuleAnswer {
        let Regular { arity, constructors, scalars, conclusion } = self;
        linked::azwukran_regular_rule(arity, constructors, scalars, conclusion, index)
    }
}

/// A List: its rules, six bytes each, and the mask of its members.
#[derive(Clone, Copy, Debug)]
pub struct List<'a> {
    pub rules: &'a [u8],
    pub members: &'a [u8],
}

impl List<'_> {
    /// Writes the mask of the members that the shape of an argument of this type at this index leaves to the front of
    /// `out`.
    #[inline]
    pub fn arg_shape(self, index: usize, type_code: u8, out: &mut [u8]) -> MaskAnswer {
        let List { rules, members } = self;
        // Safety: three slices with their lengths, the last borrowed to be written.
        unsafe {
            linked::azwukran_list_arg_shape(
                rules.as_ptr(),
                rules.len(),
                members.as_ptr(),
                members.len(),
                index,
                type_code,
                out.as_mut_ptr(),
                out.len(),
            )
        }
    }

    /// Writes the mask of the members that the number type of an argument of this type at this index leaves to the front
    /// of `out`.
    #[inline]
    pub fn arg_number(self, index: usize, type_code: u8, out: &mut [u8]) -> MaskAnswer {
        let List { rules, members } = self;
        // Safety: as for `arg_shape`.
        unsafe {
            linked::azwukran_list_arg_number(
                rules.as_ptr(),
                rules.len(),
                members.as_ptr(),
                members.len(),
                index,
                type_code,
                out.as_mut_ptr(),
                out.len(),
            )
        }
    }

    /// Writes the mask of the members without an abstract argument to the front of `out`.
    #[inline]
    pub fn concrete_only(self, out: &mut [u8]) -> MaskAnswer {
        let List { rules, members } = self;
        // Safety: as for `arg_shape`.
        unsafe {
            linked::azwukran_list_concrete_only(
                rules.as_ptr(),
                rules.len(),
                members.as_ptr(),
                members.len(),
                out.as_mut_ptr(),
                out.len(),
            )
        }
    }

    /// The first member.
    #[inline]
    pub fn preferred(self) -> ChosenAnswer {
        let List { rules, members } = self;
        // Safety: two slices with their lengths, which are only read.
        unsafe { linked::azwukran_list_preferred(rules.as_ptr(), rules.len(), members.as_ptr(), members.len()) }
    }
}
