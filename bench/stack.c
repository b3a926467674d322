/*
 * Prints the bytes of stack that each function takes for a model of 32 nested groups and 128 names. Each call is made on a
 * stack of its own, painted before; what an empty call takes is subtracted.
 */
#include <stdio.h>
#include <stdlib.h>
#include <string.h>
#include <ucontext.h>

#include "slots.h"

#define PAINT 0xA5
#define EACH (SLOTS_SLOTS_MOST / SLOTS_GROUPS_MOST)

static uint8_t stack[1 << 16];
static ucontext_t outer, inner;

static char model[SLOTS_TEXT_MOST + 1];
static uint8_t table[SLOTS_TABLE_ROOM], text[SLOTS_TEXT_ROOM], slots[SLOTS_SLOT_ROOM];
static size_t table_len;
static uint64_t answer;
static const uint8_t children[] = "a1 a2 a3";
#define CHILDREN (sizeof children - 1)

static void none(void) { answer = 0; }
static void read_model(void) { answer = slots_read((uint8_t *)model, strlen(model), table, sizeof table); }
static void write_model(void) { answer = slots_write(table, table_len, text, sizeof text); }
static void count(void) { answer = slots_count(table, table_len); }
static void judge(void) { answer = slots_judge(table, table_len); }
static void match(void) { answer = slots_match(table, table_len, children, CHILDREN, slots, sizeof slots); }
static void step(void) { answer = slots_step(table, table_len, 1, children + 3, 2); }
static void part(void) { answer = slots_part(table, table_len, children, CHILDREN); }

/* How far down the paint is gone after a call. */
static size_t depth(void (*call)(void))
{
    memset(stack, PAINT, sizeof stack);
    getcontext(&inner);
    inner.uc_stack.ss_sp = stack;
    inner.uc_stack.ss_size = sizeof stack;
    inner.uc_link = &outer;
    makecontext(&inner, call, 0);
    swapcontext(&outer, &inner);
    size_t left = 0;
    while (left < sizeof stack && stack[left] == PAINT)
        left++;
    if (left == 0) {
        fprintf(stderr, "stack: more than %zu bytes\n", sizeof stack);
        exit(1);
    }
    return sizeof stack - left;
}

static void show(const char *called, void (*call)(void), unsigned sort)
{
    size_t taken = depth(call) - depth(none);
    call();
    if (SLOTS_SORT(answer) != sort) {
        fprintf(stderr, "stack: %s answers sort %u\n", called, SLOTS_SORT(answer));
        exit(1);
    }
    printf(" %s %zu", called, taken);
}

int main(void)
{
    char *at = model;
    for (int name = 1; name <= SLOTS_SLOTS_MOST; name++)
        at += sprintf(at, "%s%sa%d", name > 1 ? "," : "", (name - 1) % EACH == 0 ? "(" : "", name);
    for (int group = 0; group < SLOTS_GROUPS_MOST; group++)
        at = stpcpy(at, ")*");
    printf("bytes of stack:");
    show("read", read_model, SLOTS_OK);
    table_len = SLOTS_A(answer);
    show("write", write_model, SLOTS_OK);
    show("count", count, SLOTS_OK);
    show("judge", judge, SLOTS_DETERMINISTIC);
    show("match", match, SLOTS_SHORT);
    show("step", step, SLOTS_NEXT);
    show("part", part, SLOTS_PART_TABLE);
    printf("\n");
    return 0;
}
