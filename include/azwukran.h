/* Azwukran for C: overload resolution of shader math functions, sets made by hand, consensus of scalars, and worksheets and
 * texts of expressions.
 *
 * Link target/staticlib/libazwukran.a, which `./staticlib` writes (x86-64). The library uses no heap, keeps nothing between
 * calls and writes nothing but the bytes lent to it as `out`, so any thread may call it at any time. No argument is an error
 * to the library: whatever it cannot answer it refuses by number.
 *
 * Lent memory
 *
 * A byte slice passes as a pointer and then its length. The pointer must be good for so many bytes. It may be any but null
 * where the length is 0, and is never null. The bytes lent as `out` overlap none of those that the same call reads.
 *
 * Numbers
 *
 *   Scalars    0 ABSTRACT_INT, 1 ABSTRACT_FLOAT, 2 I32, 3 I16, 4 I64, 5 U32, 6 U16, 7 U64, 8 F32, 9 F16, 10 F64, 11 BOOL.
 *   Types      0 to 155: 12 x constructor + scalar, with the constructors 0 SCALAR, 1 VEC2, 2 VEC3, 3 VEC4, and 4 MAT2X2
 *              to 12 MAT4X4, columns before rows. 156: an array, a pointer or a texture. 157 to 168: the result of Modf,
 *              157 + 3 x size + f, and 169 to 180: that of Frexp, 169 + 3 x size + f, with size 0 for a scalar and 1 to 3
 *              for VEC2 to VEC4, and f 0 for F32, 1 for F16, 2 for F64.
 *   Functions  0 to 78, in the order in which naga's mathfunction.rs first names them: Abs 0, Clamp 4, Sin 5, Pow 32,
 *              Modf 61, Mix 72, Transpose 74, InsertBits 78.
 *   Marks      0 constant, 1 measured. An operand is a type and a mark. A measured one is never abstract, that is, of
 *              ABSTRACT_INT or ABSTRACT_FLOAT, as a scalar, a vector or a matrix. A call is measured if any of its operands is.
 *   255        none.
 *
 * A function's full listing is its rules in naga's order; an index counts in it from 0.
 *
 * Answers
 *
 * Every function answers a structure by value. Its `number` is the refusal, 0 where the question was accepted, and its
 * `place` says where, 0 where the question was accepted. On a refusal the other fields are 255, but for a Regular set, which
 * is then the empty one, and the bytes of `out` keep theirs.
 *
 * Masks
 *
 * A mask of rules is bytes, low byte first: bit i of the first byte for rule i, bit i of the second for rule 8 + i, and so
 * on. A mask of n rules takes (n + 7) / 8 bytes. Where the library writes one to `out`, less room is refused by 10, with the
 * bytes needed as its place, last of all; bytes behind the mask keep theirs.
 */
#ifndef AZWUKRAN_H
#define AZWUKRAN_H

#include <stddef.h>
#include <stdint.h>

#ifdef __cplusplus
extern "C" {
#endif

/* Why a question was refused, and what its place then is. The functions below answer those that their comments name. */
enum azwukran_number {
    AZWUKRAN_ACCEPTED = 0,
    /* An empty set was asked for a count, a preferred rule, a preferred scalar or a size, as when a call's concrete-only
     * step leaves no rule. Place: 0; in an expression, the offset of the call. */
    AZWUKRAN_EMPTY = 1,
    /* A set of several constructors was asked for its preferred rule or size. Place: 0. */
    AZWUKRAN_SEVERAL = 2,
    /* More than 63 rules in a list, or more than 4 arguments in a rule. Place: 0. */
    AZWUKRAN_TOO_MANY = 3,
    /* Allowed types were asked at an index that some rule lacks. Place: the index. */
    AZWUKRAN_NO_ARGUMENT = 4,
    /* A call has fewer arguments than the least or more than the most. Place: 0; in an expression, the call's offset. */
    AZWUKRAN_COUNT = 5,
    /* An argument of a call has the wrong shape: of the rules that take those before it, none has its constructor there.
     * Place: 1 + its index; in an expression, the offset of its first byte. */
    AZWUKRAN_SHAPE = 6,
    /* An unknown function, type code, mark, scalar, index, set bit or conclusion. Place: 0 for the function, for the base of a
     * consensus, or for a set; 1 + index for an operand's type or mark, or a component; 1 for the index of a rule; in an
     * expression, the offset of the byte. */
    AZWUKRAN_UNKNOWN = 7,
    /* An expression is cut short, has an unknown tag, or has bytes left over; or a List's last rule is cut short, or its
     * mask. Place: the offset. Or a call has not as many marks as types. Place: the smaller of the two numbers. */
    AZWUKRAN_MALFORMED = 8,
    /* An expression has a 65th node or a node at depth 17. Place: that node's offset; in a text, that of its first run. */
    AZWUKRAN_TOO_LARGE = 9,
    /* A worksheet, a mask, an expression or a text is longer than the bytes lent for it. Place: the bytes needed. */
    AZWUKRAN_ROOM = 10,
    /* A consensus over no components, and no base. Place: 0. */
    AZWUKRAN_NOTHING = 11,
    /* There is no consensus. Place: the index of the component that does not agree, or has no scalar. */
    AZWUKRAN_DISAGREE = 12,
    /* A Modf or Frexp result is wanted for a matrix, or for a scalar other than F32, F16, F64. Place: 0. */
    AZWUKRAN_OUTSIDE = 13,
    /* A run of bytes in a text is no name of a function or a type, nor `measured`, where a node may begin. Place: its
     * offset. */
    AZWUKRAN_UNKNOWN_RUN = 14,
    /* A text has more than 4,096 bytes, or something else in it is misplaced or missing. Place: 4096; the offset of what is
     * misplaced; the text's length for what is missing at its end. */
    AZWUKRAN_MISPLACED = 15,
    /* An argument of a call has the wrong number type: rules are left with its shape, and none of them has a scalar there that
     * its own converts to. Place: as for 6. */
    AZWUKRAN_NUMBER_TYPE = 16,
    /* A measured operand has an abstract type. Place: 1 + its index; in an expression, the offset of its type. */
    AZWUKRAN_MEASURED_ABSTRACT = 17
};

/* A chosen rule. */
typedef struct azwukran_chosen_answer {
    uint8_t number;
    uint8_t index;        /* Its index: in the function's full listing, or among the rules handed in. */
    uint8_t arguments[4]; /* The argument types, 255 where it has none. */
    uint8_t count;        /* The number of arguments. */
    uint8_t result;
    uint8_t mark; /* The mark of a call's result. 255 where no call was asked, as of a List made by hand. */
    size_t place;
} azwukran_chosen_answer;

/* A rule. */
typedef struct azwukran_rule_answer {
    uint8_t number;
    uint8_t arguments[4];
    uint8_t count;
    uint8_t result;
    size_t place;
} azwukran_rule_answer;

/* A Regular set, by its parts. */
typedef struct azwukran_regular_answer {
    uint8_t number;
    uint8_t arity;
    uint16_t constructors;
    uint16_t scalars;
    uint8_t conclusion;
    size_t place;
} azwukran_regular_answer;

/* The scalar of a consensus, and who gave it. */
typedef struct azwukran_consensus_answer {
    uint8_t number;
    uint8_t scalar;
    uint8_t giver;    /* AZWUKRAN_BY_BASE or AZWUKRAN_BY_COMPONENT. */
    size_t component; /* By a component: its index, counted from 0, which may be any, 255 too. By the base: 255. */
    size_t place;
} azwukran_consensus_answer;

/* The type and the mark of an expression. */
typedef struct azwukran_type_answer {
    uint8_t number;
    uint8_t type;
    uint8_t mark;
    size_t length; /* How many bytes the worksheet takes. */
    size_t place;
} azwukran_type_answer;

/* What was read from a text, or the text that was written. */
typedef struct azwukran_text_answer {
    uint8_t number;
    size_t length; /* How many bytes it takes. */
    size_t place;
} azwukran_text_answer;

/* How a worksheet ran. */
typedef struct azwukran_run_answer {
    uint8_t number;  /* 0: to its end. AZWUKRAN_STOPPED: not. */
    uint8_t top;     /* The type of the topmost operand, 255 where none is left. */
    uint8_t mark;    /* Its mark, 255 where none is left. */
    size_t operands; /* How many operands are left. */
    size_t place;    /* The line where it stopped, counted from 0; 0 at the end. */
} azwukran_run_answer;

/* Whether a mask was written. */
typedef struct azwukran_mask_answer {
    uint8_t number;
    size_t place;
} azwukran_mask_answer;

/* The marks of operands and results. */
enum { AZWUKRAN_CONSTANT = 0, AZWUKRAN_MEASURED = 1 };

/* Who gave the scalar of a consensus. */
enum { AZWUKRAN_BY_BASE = 0, AZWUKRAN_BY_COMPONENT = 1 };

/* The number of a run that stopped. */
enum { AZWUKRAN_STOPPED = 255 };

/* Resolves a call: the rule that `function` prefers for operands of these types (0 to 180) and marks (0 or 1), and the mark of
 * its result. n and m are the numbers of types and of marks, which are equal. concrete_only is 0 or 1; with 1, and where an
 * operand is measured, rules with an abstract argument are dropped after the arguments. Refusals, tested in this order: 7 for
 * the function; 8 if n is not m; 7 and 17 for each operand in turn; 5; 6 and 16 for each operand in turn; 1. */
azwukran_chosen_answer azwukran_call(uint8_t function, const uint8_t *types, size_t n, const uint8_t *marks, size_t m,
                                     uint8_t concrete_only);

/* The rules that survive the same call, as a mask over the function's full listing, written to the front of `out`, which has
 * `room` bytes. Refused as the call is, then 10 for room. No function has more than 63 rules, so 8 bytes suffice. */
azwukran_mask_answer azwukran_survivors(uint8_t function, const uint8_t *types, size_t n, const uint8_t *marks, size_t m,
                                        uint8_t concrete_only, uint8_t *out, size_t room);

/* One rule of a function's full listing. Refusal 7 at place 0 for an unknown function, at place 1 for an unknown index. */
azwukran_rule_answer azwukran_rule(uint8_t function, uint8_t index);

/* The scalar on which components of these types (0 to 180) agree, from a base scalar (0 to 11) or none (255), and who gave
 * it: the base if it already was that scalar, otherwise the first component whose scalar it is. With no base the first
 * component serves as one, and is named as component 0 if it gave it. Refusals, tested in this order: 7, 11, 12. */
azwukran_consensus_answer azwukran_consensus(uint8_t base, const uint8_t *components, size_t n);

/* Types an expression of n bytes and writes its worksheet to the front of `out`, which has `room` bytes; 508 always suffice.
 * An expression is in prefix form: a constant leaf is 0, type (0 to 156), a measured one 2, type; a call is 1, function, number
 * of arguments, and then its arguments. concrete_only (0 or 1) concerns every call, and counts as 1 for a measured one. A
 * worksheet is lines of four bytes: 0, type, mark, 0 pushes a leaf; 2, depth from the top, type, 0 converts an operand; 1,
 * function, index, number of arguments calls. Refusals: 8, 9, 7, 17 in the order of the bytes, 7 before 17 at one byte; then,
 * call by call, 5, 6 and 16 for each argument in turn, 1; then 10. An accepted worksheet is the first `length` bytes of `out`,
 * and the bytes behind it keep theirs. To learn the length without lending any, ask with room 0: an expression that is right
 * but for that is refused by 10, with the length as its place. */
azwukran_type_answer azwukran_type(const uint8_t *bytes, size_t n, uint8_t concrete_only, uint8_t *out, size_t room);

/* Texts
 *
 * The text of an expression is that of its root. A leaf's is the name of its type, and, if it is measured, the run `measured`
 * before that; a call's is the name of its function, and then the texts of its arguments, with commas between them, in one pair
 * of parentheses, which may be empty. Scalars are named abstract-int, abstract-float, i32, i16, i64, u32, u16, u64, f32, f16,
 * f64 and bool, others as vec3<f32> and mat2x3<f16>, and 156 is other. A function's name is naga's with the first letter made
 * small, as faceForward. A token is ( or ) or , or a longest run of other bytes but space. Spaces may stand before, between and
 * behind tokens, and one must stand behind `measured`. */

/* Reads a text of n bytes and writes the expression's bytes to the front of `out`, which has `room` bytes; 192 always
 * suffice. Refusals: 15 for a text above 4,096 bytes; then the first in the text of 9, 14 and 15, with 9 before 14 at one
 * name; then 10. What stands behind `measured` and is no type's name is refused by 15. Nothing is typed: whether the functions
 * take their arguments, and whether a measured leaf is abstract, is for azwukran_type to say. */
azwukran_text_answer azwukran_read_text(const uint8_t *text, size_t n, uint8_t *out, size_t room);

/* Writes the text of an expression of n bytes to the front of `out`, which has `room` bytes; 2,112 always suffice. A space
 * stands behind each comma and each `measured` and nowhere else, and no zero byte is added. Reading the text gives back the
 * bytes. Refusals: 8, 9, 7, 17 in the order of the bytes, as for azwukran_type, then 10. */
azwukran_text_answer azwukran_write_text(const uint8_t *bytes, size_t n, uint8_t *out, size_t room);

/* Runs a worksheet of n bytes on the strict machine, which stops at the first line that is not exactly right: also at the leaf
 * line of a measured abstract operand, and at a call with a measured operand by a rule with an abstract argument. */
azwukran_run_answer azwukran_run(const uint8_t *sheet, size_t n);

/* Sets made by hand
 *
 * A Regular set is handed in as its parts. arity is the number of arguments of its rules, 0 to 4. constructors and scalars
 * are masks: bit i for constructor or scalar i. conclusion says what a rule of argument type T results in: 0 T itself, 1 its
 * scalar, 2 and 3 the results of Frexp and Modf, 4 U32, 5 I32, 6 VEC2 of F32, 7 VEC4 of F32, 8 VEC4 of I32, 9 VEC4 of U32.
 * Its listing has a rule for each constructor and, within one, for each scalar, both ascending. Every question refuses an
 * unknown bit or conclusion (7), then an arity above 4 (3), both at place 0.
 *
 * A List is handed in as its rules, six bytes each (argument types 0 to 3, number of arguments, result; an argument that the
 * rule has not may be any byte), the most preferred first, and the mask of its members; n and m are the numbers of bytes of
 * the two. Bytes of the mask beyond those that the rules need are not read. Every question refuses a last rule cut short (8,
 * at its offset), then a mask cut short (8, at m), then an unknown type, or a member that is no rule (7), then more than 63
 * rules, or a rule of more than 4 arguments (3), these at place 0. Arguments are 0 to 155, results 0 to 180; of more than 63
 * rules the first 63 are tested for this.
 *
 * An argument of a type at an index is tried in two steps. The step by its shape keeps the rules whose constructor there is
 * the type's; the step by its number type keeps those whose scalar there is one that the type's scalar converts to. Both, in
 * either order, leave the rules that take the argument. A rule without that index goes at either step. The type is 0 to 180;
 * another is refused by 7 at place 0, before any 3. Those from 156 on have neither constructor nor scalar and leave no rule at
 * either step. A set that is left empty is answered, not refused. */

/* The set that an argument's shape leaves: of the constructors the type's, and the other parts as they are, also where no
 * constructor is left. An index at or above the arity leaves the empty set, all 0. */
azwukran_regular_answer azwukran_regular_arg_shape(uint8_t arity, uint16_t constructors, uint16_t scalars,
                                                   uint8_t conclusion, size_t index, uint8_t type);

/* The set that an argument's number type leaves: of the scalars those that the type's converts to, and the other parts as
 * they are, also where no scalar is left. An index at or above the arity leaves the empty set, all 0. */
azwukran_regular_answer azwukran_regular_arg_number(uint8_t arity, uint16_t constructors, uint16_t scalars,
                                                    uint8_t conclusion, size_t index, uint8_t type);

/* The set without ABSTRACT_INT and ABSTRACT_FLOAT. */
azwukran_regular_answer azwukran_regular_concrete_only(uint8_t arity, uint16_t constructors, uint16_t scalars,
                                                       uint8_t conclusion);

/* The rule that the set prefers. Refusals, besides the set's own: 1 if it has no rule, 2 if it has several constructors, 13 if
 * the rule has no conclusion. */
azwukran_rule_answer azwukran_regular_preferred(uint8_t arity, uint16_t constructors, uint16_t scalars, uint8_t conclusion);

/* The rule at an index of the set's listing. Refusals, besides the set's own: 13 if some rule has no conclusion, then 7 at
 * place 1 for an unknown index. */
azwukran_rule_answer azwukran_regular_rule(uint8_t arity, uint16_t constructors, uint16_t scalars, uint8_t conclusion,
                                           uint8_t index);

/* The members that an argument's shape leaves, as a mask written to the front of `out`, which has `room` bytes:
 * (n / 6 + 7) / 8 are needed. */
azwukran_mask_answer azwukran_list_arg_shape(const uint8_t *rules, size_t n, const uint8_t *members, size_t m, size_t index,
                                             uint8_t type, uint8_t *out, size_t room);

/* The members that an argument's number type leaves, in the same form. */
azwukran_mask_answer azwukran_list_arg_number(const uint8_t *rules, size_t n, const uint8_t *members, size_t m, size_t index,
                                              uint8_t type, uint8_t *out, size_t room);

/* The members without an argument of ABSTRACT_INT or ABSTRACT_FLOAT, in the same form. */
azwukran_mask_answer azwukran_list_concrete_only(const uint8_t *rules, size_t n, const uint8_t *members, size_t m,
                                                 uint8_t *out, size_t room);

/* The first member, its index counted in the rules handed in. Refusals, besides the List's own: 1 if it has no member. */
azwukran_chosen_answer azwukran_list_preferred(const uint8_t *rules, size_t n, const uint8_t *members, size_t m);

#ifdef __cplusplus
}
#endif

#endif
