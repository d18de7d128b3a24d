/* Asks the library questions of each kind, and prints the answers. examples/rust prints the same lines from Rust;
 * `examples/run` builds both, runs them and compares.
 */
#include <stdio.h>
#include <string.h>

#include "azwukran.h"

/* Functions and types by number. */
enum { CLAMP = 4, SIN = 5, POW = 32, DISTANCE = 66, MIX = 72, TRANSPOSE = 74 };
enum { ABSTRACT_INT = 0, ABSTRACT_FLOAT = 1, U32 = 5, F32 = 8, F16 = 9, VEC2_F32 = 20, NO_LEAF = 157, NONE = 255 };

/* Bytes of every worksheet, of every expression that is read, of every text that is written, of every mask, of a worksheet's
 * line and of a List's rule; the most rules of a List; the depth that a node may have; and what stands in lent bytes before
 * they are written. */
enum { ENOUGH_ROOM = 508, ENOUGH_BYTES = 192, ENOUGH_TEXT = 2112, ENOUGH_MASK = 8 };
enum { LINE = 4, RULE = 6, MOST_RULES = 63, DEEPEST = 16, FILL = 165 };

/* Prints the refusal, if there is one. */
static int refused(uint8_t number, size_t place) {
    if (number != AZWUKRAN_ACCEPTED) {
        printf("refusal %u at %zu\n", number, place);
    }
    return number != AZWUKRAN_ACCEPTED;
}

/* Prints numbers with spaces between them. */
static void print_listed(const uint8_t *numbers, size_t n) {
    for (size_t k = 0; k < n; k++) {
        printf("%s%u", k == 0 ? "" : " ", numbers[k]);
    }
}

static void print_rule(const uint8_t *arguments, uint8_t count, uint8_t result) {
    print_listed(arguments, count);
    printf(" -> %u", result);
}

static void print_members(const uint8_t *mask, size_t n) {
    const char *before = "";
    for (size_t rule = 0; rule < 8 * n; rule++) {
        if (mask[rule / 8] >> rule % 8 & 1) {
            printf("%s%zu", before, rule);
            before = " ";
        }
    }
}

/* A mark in words; none where there is no operand. */
static const char *mark_text(uint8_t mark) {
    return mark == AZWUKRAN_MEASURED ? "measured" : mark == AZWUKRAN_CONSTANT ? "constant" : "none";
}

/* A call of operands of these n types and m marks, and the rules that survive it. */
static void show_call(const char *name, uint8_t function, const uint8_t *types, size_t n, const uint8_t *marks, size_t m,
                      uint8_t concrete_only) {
    printf("%s of ", name);
    print_listed(types, n);
    printf(", marks ");
    print_listed(marks, m);
    printf("%s: ", concrete_only ? ", concrete only" : "");
    azwukran_chosen_answer call = azwukran_call(function, types, n, marks, m, concrete_only);
    if (refused(call.number, call.place)) {
        return;
    }
    uint8_t mask[ENOUGH_MASK] = {0};
    azwukran_mask_answer left = azwukran_survivors(function, types, n, marks, m, concrete_only, mask, sizeof mask);
    if (refused(left.number, left.place)) {
        return;
    }
    printf("rule %u, ", call.index);
    print_rule(call.arguments, call.count, call.result);
    printf(", %s; survivors ", mark_text(call.mark));
    print_members(mask, sizeof mask);
    printf("\n");
}

/* Prints a rule behind a question, or the refusal. */
static void show_rule(const char *question, azwukran_rule_answer rule) {
    printf("%s: ", question);
    if (!refused(rule.number, rule.place)) {
        print_rule(rule.arguments, rule.count, rule.result);
        printf("\n");
    }
}

/* The scalar of a consensus, and who gave it. */
static void show_consensus(uint8_t base, const uint8_t *components, size_t n) {
    printf("consensus of ");
    print_listed(components, n);
    printf(", base %u: ", base);
    azwukran_consensus_answer consensus = azwukran_consensus(base, components, n);
    if (refused(consensus.number, consensus.place)) {
        return;
    }
    printf("scalar %u, given by ", consensus.scalar);
    if (consensus.giver == AZWUKRAN_BY_BASE) {
        printf("the base\n");
    } else {
        printf("component %zu\n", consensus.component);
    }
}

static void show_run(const char *question, const uint8_t *sheet, size_t n) {
    azwukran_run_answer run = azwukran_run(sheet, n);
    if (run.number == AZWUKRAN_STOPPED) {
        printf("%s: stopped at line %zu\n", question, run.place);
    } else {
        printf("%s: ended, operands %zu, top %u, %s\n", question, run.operands, run.top, mark_text(run.mark));
    }
}

/* An expression's type and mark, its worksheet, and how that runs, whole and without its first line. */
static void show_expression(const uint8_t *bytes, size_t n) {
    printf("expression ");
    print_listed(bytes, n);
    printf(": ");
    uint8_t sheet[ENOUGH_ROOM];
    azwukran_type_answer typed = azwukran_type(bytes, n, 0, sheet, sizeof sheet);
    if (refused(typed.number, typed.place)) {
        return;
    }
    size_t length = typed.length;
    printf("type %u, %s, worksheet of %zu bytes\n", typed.type, mark_text(typed.mark), length);
    for (size_t line = 0; line < length; line += LINE) {
        printf("  ");
        print_listed(sheet + line, LINE);
        printf("\n");
    }
    show_run("machine", sheet, length);
    show_run("machine, without the first line", sheet + LINE, length - LINE);
}

/* The text of an expression, written with this room, at most ENOUGH_TEXT. */
static void show_written(const char *question, const uint8_t *bytes, size_t n, size_t room) {
    printf("%s: ", question);
    uint8_t lent[ENOUGH_TEXT];
    memset(lent, FILL, sizeof lent);
    azwukran_text_answer written = azwukran_write_text(bytes, n, lent, room);
    if (!refused(written.number, written.place)) {
        printf("%.*s\n", (int)written.length, (const char *)lent);
    }
}

/* The bytes that a text is read into, and the text written of them, also with too little room for either. */
static void show_text(const char *text) {
    const uint8_t *start = (const uint8_t *)text;
    printf("text %s: ", text);
    uint8_t bytes[ENOUGH_BYTES];
    azwukran_text_answer read = azwukran_read_text(start, strlen(text), bytes, sizeof bytes);
    if (refused(read.number, read.place)) {
        return;
    }
    print_listed(bytes, read.length);
    printf("\n  read with a byte too little: ");
    uint8_t short_of_one[ENOUGH_BYTES];
    azwukran_text_answer again = azwukran_read_text(start, strlen(text), short_of_one, read.length - 1);
    if (!refused(again.number, again.place)) {
        printf("%zu\n", again.length);
    }
    show_written("  written", bytes, read.length, ENOUGH_TEXT);
    show_written("  written with no room", bytes, read.length, 0);
}

/* Prints a Regular set behind a question, or the refusal. */
static void show_set(const char *question, azwukran_regular_answer set) {
    printf("%s: ", question);
    if (!refused(set.number, set.place)) {
        printf("arity %u, constructors %u, scalars %u, conclusion %u\n", set.arity, set.constructors, set.scalars,
               set.conclusion);
    }
}

/* A Regular set, its rules, and what steps leave of it: concrete-only, and an argument's two, one after the other. */
static void show_regular(uint8_t arity, uint16_t constructors, uint16_t scalars, uint8_t conclusion) {
    azwukran_regular_answer set = {0, arity, constructors, scalars, conclusion, 0};
    show_set("Regular set", set);
    show_rule("  preferred", azwukran_regular_preferred(arity, constructors, scalars, conclusion));
    show_rule("  rule 5", azwukran_regular_rule(arity, constructors, scalars, conclusion, 5));
    show_set("  concrete only", azwukran_regular_concrete_only(arity, constructors, scalars, conclusion));
    azwukran_regular_answer left = azwukran_regular_arg_shape(arity, constructors, scalars, conclusion, 0, VEC2_F32);
    show_set("  argument 0 by the shape of type 20", left);
    if (left.number != AZWUKRAN_ACCEPTED) {
        return;
    }
    left = azwukran_regular_arg_number(left.arity, left.constructors, left.scalars, left.conclusion, 0, VEC2_F32);
    show_set("  and by its number type", left);
    if (left.number != AZWUKRAN_ACCEPTED) {
        return;
    }
    show_rule("  preferred then",
              azwukran_regular_preferred(left.arity, left.constructors, left.scalars, left.conclusion));
}

/* Prints the bytes lent for a mask behind a question, or the refusal. */
static void show_lent(const char *question, azwukran_mask_answer answer, const uint8_t *lent, size_t n) {
    printf("%s: ", question);
    if (!refused(answer.number, answer.place)) {
        print_listed(lent, n);
        printf("\n");
    }
}

/* The rules of a function as a List, and what steps leave of it: an argument's two, one after the other, and concrete-only.
 * A step lends eight bytes for its mask; those behind it keep what they held. */
static void show_list(const char *name, uint8_t function) {
    uint8_t rules[MOST_RULES * RULE];
    size_t n = 0;
    for (uint8_t index = 0; index < MOST_RULES; index++) {
        azwukran_rule_answer rule = azwukran_rule(function, index);
        if (rule.number != AZWUKRAN_ACCEPTED) {
            break;
        }
        memcpy(rules + n, rule.arguments, sizeof rule.arguments);
        rules[n + 4] = rule.count;
        rules[n + 5] = rule.result;
        n += RULE;
    }
    /* All of its 32 rules. */
    const uint8_t members[] = {0xff, 0xff, 0xff, 0xff};
    printf("List: %s, %zu bytes of rules\n", name, n);
    uint8_t shaped[ENOUGH_MASK];
    memset(shaped, FILL, sizeof shaped);
    azwukran_mask_answer left = azwukran_list_arg_shape(rules, n, members, sizeof members, 0, VEC2_F32, shaped, 0);
    show_lent("  argument 0 by the shape of type 20, no room", left, shaped, 0);
    left = azwukran_list_arg_shape(rules, n, members, sizeof members, 0, VEC2_F32, shaped, sizeof shaped);
    show_lent("  argument 0 by the shape of type 20", left, shaped, sizeof shaped);
    uint8_t lent[ENOUGH_MASK];
    memset(lent, FILL, sizeof lent);
    left = azwukran_list_arg_number(rules, n, shaped, sizeof shaped, 0, VEC2_F32, lent, sizeof lent);
    show_lent("  and by its number type", left, lent, sizeof lent);
    azwukran_chosen_answer preferred = azwukran_list_preferred(rules, n, lent, sizeof lent);
    printf("  preferred then: ");
    if (!refused(preferred.number, preferred.place)) {
        printf("rule %u, ", preferred.index);
        print_rule(preferred.arguments, preferred.count, preferred.result);
        printf("\n");
    }
    memset(lent, FILL, sizeof lent);
    left = azwukran_list_concrete_only(rules, n, members, sizeof members, lent, sizeof lent);
    show_lent("  concrete only", left, lent, sizeof lent);
}

int main(void) {
    const uint8_t clamped[] = {ABSTRACT_INT, U32, ABSTRACT_INT};
    const uint8_t angle[] = {ABSTRACT_INT};
    const uint8_t mixed[] = {F32, F32, F32};
    const uint8_t unlike[] = {F32, F16};
    const uint8_t unshaped[] = {F32, VEC2_F32};
    const uint8_t constants[] = {AZWUKRAN_CONSTANT, AZWUKRAN_CONSTANT, AZWUKRAN_CONSTANT};
    show_call("Clamp", CLAMP, clamped, sizeof clamped, constants, sizeof clamped, 0);
    show_call("Sin", SIN, angle, sizeof angle, constants, sizeof angle, 0);
    show_call("Sin", SIN, angle, sizeof angle, constants, sizeof angle, 1);
    show_call("Mix", MIX, mixed, sizeof mixed, constants, sizeof mixed, 0);
    show_call("Pow", POW, unlike, sizeof unlike, constants, sizeof unlike, 0);
    show_call("Pow", POW, unshaped, sizeof unshaped, constants, sizeof unshaped, 0);
    const uint8_t reading[] = {F32, ABSTRACT_INT, ABSTRACT_FLOAT};
    const uint8_t one_measured[] = {AZWUKRAN_MEASURED, AZWUKRAN_CONSTANT, AZWUKRAN_CONSTANT};
    const uint8_t both_measured[] = {AZWUKRAN_MEASURED, AZWUKRAN_MEASURED};
    show_call("Clamp", CLAMP, reading, sizeof reading, one_measured, sizeof one_measured, 0);
    show_call("Pow", POW, reading, 2, both_measured, 2, 0);
    show_call("Pow", POW, reading, 2, both_measured, 1, 0);
    show_rule("rule 4 of Transpose", azwukran_rule(TRANSPOSE, 4));
    show_rule("rule 36 of Transpose", azwukran_rule(TRANSPOSE, 36));
    const uint8_t floats[] = {ABSTRACT_INT, F32, ABSTRACT_FLOAT};
    const uint8_t no_floats[] = {ABSTRACT_INT, U32, ABSTRACT_FLOAT};
    show_consensus(NONE, floats, sizeof floats);
    show_consensus(NONE, no_floats, sizeof no_floats);
    const uint8_t one_u32[] = {ABSTRACT_INT, U32};
    const uint8_t two_u32[] = {ABSTRACT_INT, U32, U32};
    show_consensus(U32, one_u32, sizeof one_u32);
    show_consensus(ABSTRACT_INT, two_u32, sizeof two_u32);
    const uint8_t clamp[] = {1, CLAMP, 3, 0, ABSTRACT_INT, 0, U32, 0, ABSTRACT_INT};
    const uint8_t power[] = {1, POW, 2, 1, DISTANCE, 2, 0, ABSTRACT_FLOAT, 0, ABSTRACT_FLOAT, 0, F16};
    const uint8_t measured[] = {1, CLAMP, 3, 2, F32, 0, ABSTRACT_INT, 0, ABSTRACT_FLOAT};
    const uint8_t measured_abstract[] = {1, SIN, 1, 2, ABSTRACT_FLOAT};
    show_expression(clamp, sizeof clamp);
    show_expression(power, sizeof power);
    show_expression(measured, sizeof measured);
    show_expression(measured_abstract, sizeof measured_abstract);
    show_text("clamp(abstract-int, u32, abstract-int)");
    show_text(" mix ( vec2<f32>,vec2<f32>,f32 ) ");
    show_text("sin()");
    show_text("Sin(f32)");
    show_text("sin(f32,)");
    show_text("sin(f32");
    show_text("pow( measured  f32,abstract-int)");
    show_text("sin(measured)");
    char deep[4 * DEEPEST + 4] = "";
    for (size_t depth = 0; depth < DEEPEST; depth++) {
        strcat(deep, "sin(");
    }
    show_text(strcat(deep, "f32"));
    const uint8_t no_leaf[] = {0, NO_LEAF};
    const uint8_t cut_short[] = {1, SIN};
    const uint8_t abstract[] = {2, ABSTRACT_INT};
    show_written("no leaf", no_leaf, sizeof no_leaf, ENOUGH_TEXT);
    show_written("cut short", cut_short, sizeof cut_short, ENOUGH_TEXT);
    show_written("measured and abstract", abstract, sizeof abstract, ENOUGH_TEXT);
    /* Pow's rules: two arguments of one type, scalar or vector, of a float. */
    show_regular(2, 0xf, 0x702, 0);
    show_list("Mix", MIX);
    return 0;
}
