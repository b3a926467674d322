/*
 * One call of one function of the library on one model, for callgrind to count: count CALL FAMILY NAMES.
 * CALL is read, judge or match; FAMILY is choice, (a1|..|an)*, optional, (a1?,..,an?)*, sequence, (a1,..,an)*, or equal,
 * (a1,..,an-1,an-1)*. A list of at most 4,000 children goes round the names, a whole number of times.
 */
#include <stdio.h>
#include <stdlib.h>
#include <string.h>

#include "slots.h"

#define CHILDREN 4000

static char model[SLOTS_TEXT_MOST + 1], children[SLOTS_CHILDREN_MOST + 1];
static uint8_t table[SLOTS_TABLE_ROOM], slots[SLOTS_SLOT_ROOM];

int main(int argc, char **argv)
{
    if (argc < 4)
        return 2;
    const char *call = argv[1], *family = argv[2];
    int names = atoi(argv[3]);
    int choice = strcmp(family, "choice") == 0, optional = strcmp(family, "optional") == 0;
    int equal = strcmp(family, "equal") == 0;
    char *at = model;
    *at++ = '(';
    for (int name = 1; name <= names; name++)
        at += sprintf(at, "%sa%d%s", name == 1 ? "" : choice ? "|" : ",", equal && name == names ? name - 1 : name,
                      optional ? "?" : "");
    strcpy(at, ")*");
    uint64_t answer = slots_read((uint8_t *)model, strlen(model), table, sizeof table);
    if (SLOTS_SORT(answer) != SLOTS_OK)
        return 1;
    size_t table_len = SLOTS_A(answer);
    int count = 0;
    at = children;
    while (count + names <= CHILDREN && at - children + 5 * names <= SLOTS_CHILDREN_MOST)
        for (int name = 1; name <= names; name++, count++)
            at += sprintf(at, "a%d ", name);
    if (strcmp(call, "judge") == 0)
        answer = slots_judge(table, table_len);
    if (strcmp(call, "match") == 0)
        answer = slots_match(table, table_len, (uint8_t *)children, strlen(children), slots, sizeof slots);
    printf("%u %d\n", (unsigned)SLOTS_SORT(answer), count);
    return 0;
}
