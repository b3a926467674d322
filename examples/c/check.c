/*
 * Checks the committee's own model, (house*,line?,house*), shows where its two readings part, and then matches a list
 * against the model that says the same without the doubt. From the repository's root, after `(cd crates/exports && rt lib)`:
 *
 *     out=crates/exports/out; cc -Iinclude examples/c/check.c $out/libexports.a -o $out/check && $out/check
 *
 * It prints
 *
 *     (house*,line?,house*): ambiguous 0 1 3 house
 *     (house*,(line,house*)?): deterministic
 *     house house line house: allowed 4, slots 1 1 2 3
 */
#include <stdio.h>
#include <string.h>

#include "slots.h"

static uint8_t table[SLOTS_TABLE_ROOM];
static uint8_t slots[SLOTS_SLOT_ROOM];

/* Reads a model into `table`; the table's length, or 0 with the refusal shown. */
static size_t read_model(const char *model)
{
    uint64_t answer = slots_read((const uint8_t *)model, strlen(model), table, sizeof table);
    if (SLOTS_SORT(answer) != SLOTS_OK) {
        printf("%s: refused %u %u\n", model, SLOTS_SORT(answer), (unsigned)SLOTS_A(answer));
        return 0;
    }
    return SLOTS_A(answer);
}

/* Prints the name of a slot: a node's first two bits are 0 for a name, and its last twelve are the name number. */
static void print_name(unsigned slot)
{
    size_t nodes = table[0] * 256u + table[1], at = 4 + 2 * nodes, number = 0;
    for (size_t node = 0; node < nodes && slot > 0; node++) {
        unsigned word = table[4 + 2 * node] * 256u + table[5 + 2 * node];
        if (word >> 14 == 0) {
            slot--;
            number = word & 0xFFF;
        }
    }
    for (; number > 0; number--)
        at += 1u + table[at];
    printf("%.*s", table[at], (const char *)table + at + 1);
}

/* Shows the verdict on a model, and says whether it is deterministic. */
static int judge(const char *model, size_t length)
{
    uint64_t verdict = slots_judge(table, length);
    if (SLOTS_SORT(verdict) == SLOTS_AMBIGUOUS) {
        unsigned p = SLOTS_A(verdict), x = SLOTS_B(verdict), y = SLOTS_C(verdict);
        printf("%s: ambiguous %u %u %u ", model, p, x, y);
        print_name(x);
        printf("\n");
        return 0;
    }
    printf("%s: deterministic\n", model);
    return 1;
}

int main(void)
{
    const char *committee = "(house*,line?,house*)", *better = "(house*,(line,house*)?)";
    const char *children = "house house line house";
    size_t length = read_model(committee);
    if (length == 0 || judge(committee, length))
        return 1;
    length = read_model(better);
    if (length == 0 || !judge(better, length))
        return 1;
    uint64_t matched =
        slots_match(table, length, (const uint8_t *)children, strlen(children), slots, sizeof slots);
    if (SLOTS_SORT(matched) != SLOTS_ALLOWED)
        return 1;
    printf("%s: allowed %u, slots", children, (unsigned)SLOTS_A(matched));
    for (size_t child = 0; child < SLOTS_A(matched); child++)
        printf(" %u", slots[child]);
    printf("\n");
    return 0;
}
