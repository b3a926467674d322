/*
 * Times the proved library beside libxml2: microseconds to read and to judge a model, nanoseconds a child to match a
 * list.
 *
 * Both are given the same model text and the same child text, in the same run; each number is the best of several runs.
 * Rooms are not cleared between calls. What is timed:
 *
 *            slots                    libxml2
 *   read     slots_read               xmlIOParseDTD of <!ELEMENT r MODEL>
 *   judge    slots_judge              xmlValidBuildContentModel
 *   match    slots_match              regexp: the words of the child text, split off and pushed to the xmlRegexp
 *                                     valid: xmlReadMemory and xmlValidateDtd of <r><a/>..</r> with the same children
 *
 * slots_read writes the table; slots_match checks the whole table, judges it and checks the whole child text on every
 * call.
 */
#include <stdint.h>
#include <stdio.h>
#include <stdlib.h>
#include <string.h>
#include <time.h>

#include "slots.h"

#ifdef WITH_LIBXML2
#include <libxml/parser.h>
#include <libxml/valid.h>
#include <libxml/xmlregexp.h>
#endif

#define RUNS 7
#define RUN_SECONDS 0.01

/* A model, a child list that it allows, and what the library made of them. */
struct subject {
    char family[32];
    int names;
    char model[SLOTS_TEXT_MOST + 1];
    char children[SLOTS_CHILDREN_MOST + 1];
    size_t count;
    uint8_t table[SLOTS_TABLE_ROOM];
    size_t table_len;
    uint8_t slots[SLOTS_SLOT_ROOM];
#ifdef WITH_LIBXML2
    char declaration[SLOTS_TEXT_MOST + 32];
    char *document;
    xmlDtdPtr dtd;
    xmlElementPtr element;
    xmlValidCtxtPtr valid;
#endif
};

static void fail(const struct subject *s, const char *what)
{
    fprintf(stderr, "bench: %s %d: %s\n", s->family, s->names, what);
    exit(1);
}

static double now(void)
{
    struct timespec time;
    clock_gettime(CLOCK_MONOTONIC, &time);
    return (double)time.tv_sec + (double)time.tv_nsec * 1e-9;
}

/* Seconds that one call takes: the best of several runs, each of as many calls as make a run long enough. */
static double best(void (*call)(struct subject *), struct subject *s)
{
    double least = 1e9;
    size_t calls = 1;
    for (int run = 0; run < RUNS;) {
        double start = now();
        for (size_t done = 0; done < calls; done++)
            call(s);
        double took = now() - start;
        if (took < RUN_SECONDS && run == 0) {
            calls *= 2;
            continue;
        }
        if (took / (double)calls < least)
            least = took / (double)calls;
        run++;
    }
    return least;
}

static void our_read(struct subject *s)
{
    uint64_t answer = slots_read((uint8_t *)s->model, strlen(s->model), s->table, sizeof s->table);
    if (SLOTS_SORT(answer) != SLOTS_OK)
        fail(s, "slots_read refuses the model");
    s->table_len = SLOTS_A(answer);
}

static void our_judge(struct subject *s)
{
    if (SLOTS_SORT(slots_judge(s->table, s->table_len)) != SLOTS_DETERMINISTIC)
        fail(s, "slots_judge does not answer deterministic");
}

static void our_match(struct subject *s)
{
    uint64_t answer = slots_match(s->table, s->table_len, (uint8_t *)s->children, strlen(s->children), s->slots,
                                  sizeof s->slots);
    if (SLOTS_SORT(answer) != SLOTS_ALLOWED || SLOTS_A(answer) != s->count)
        fail(s, "slots_match does not allow the children");
}

#ifdef WITH_LIBXML2
static xmlDtdPtr parse_dtd(struct subject *s, const char *text)
{
    xmlParserInputBufferPtr in = xmlParserInputBufferCreateMem(text, (int)strlen(text), XML_CHAR_ENCODING_UTF8);
    xmlDtdPtr dtd = in == NULL ? NULL : xmlIOParseDTD(NULL, in, XML_CHAR_ENCODING_UTF8);
    if (dtd == NULL)
        fail(s, "libxml2 refuses the declaration");
    return dtd;
}

static void their_read(struct subject *s)
{
    xmlFreeDtd(parse_dtd(s, s->declaration));
}

static void their_judge(struct subject *s)
{
    if (s->element->contModel != NULL) {
        xmlRegFreeRegexp(s->element->contModel);
        s->element->contModel = NULL;
    }
    if (xmlValidBuildContentModel(s->valid, s->element) != 1)
        fail(s, "libxml2 does not call the model deterministic");
}

static void their_match(struct subject *s)
{
    static char words[SLOTS_CHILDREN_MOST + 1];
    xmlRegExecCtxtPtr exec = xmlRegNewExecCtxt(s->element->contModel, NULL, NULL);
    strcpy(words, s->children);
    for (char *at = words; *at != '\0';) {
        char *word = at;
        at += strcspn(at, " ");
        if (*at != '\0')
            *at++ = '\0';
        if (xmlRegExecPushString(exec, (xmlChar *)word, NULL) < 0)
            fail(s, "libxml2's xmlRegexp stops");
    }
    if (xmlRegExecPushString(exec, NULL, NULL) != 1)
        fail(s, "libxml2's xmlRegexp does not allow the children");
    xmlRegFreeExecCtxt(exec);
}

static void their_valid(struct subject *s)
{
    xmlDocPtr doc = xmlReadMemory(s->document, (int)strlen(s->document), NULL, NULL, XML_PARSE_NONET);
    if (doc == NULL || xmlValidateDtd(s->valid, doc, s->dtd) != 1)
        fail(s, "libxml2 does not call the document valid");
    xmlFreeDoc(doc);
}

/* The declarations, and a document with the same children. */
static void prepare_theirs(struct subject *s)
{
    static char dtd[2 * SLOTS_TEXT_MOST + 128 * 40], document[4 * SLOTS_CHILDREN_MOST], words[SLOTS_CHILDREN_MOST + 1];
    sprintf(s->declaration, "<!ELEMENT r %s>", s->model);
    char *at = dtd + sprintf(dtd, "%s", s->declaration);
    for (int name = 1; name <= s->names; name++)
        at += sprintf(at, "<!ELEMENT a%d EMPTY>", name);
    at = document + sprintf(document, "<r>");
    strcpy(words, s->children);
    for (char *word = strtok(words, " "); word != NULL; word = strtok(NULL, " "))
        at += sprintf(at, "<%s/>", word);
    strcpy(at, "</r>");
    s->document = document;
    s->dtd = parse_dtd(s, dtd);
    s->element = xmlGetDtdElementDesc(s->dtd, (const xmlChar *)"r");
    s->valid = xmlNewValidCtxt();
}

static void free_theirs(struct subject *s)
{
    xmlFreeValidCtxt(s->valid);
    xmlFreeDtd(s->dtd);
}
#endif

/* One line of the table. */
static void measure(struct subject *s)
{
    double children = (double)s->count;
    double read = best(our_read, s) * 1e6, judge = best(our_judge, s) * 1e6;
    double match = best(our_match, s) * 1e9 / children;
    printf("%-18s %4d %6zu %9.2f %9.2f %9.1f", s->family, s->names, s->count, read, judge, match);
#ifdef WITH_LIBXML2
    prepare_theirs(s);
    double xml_read = best(their_read, s) * 1e6, xml_judge = best(their_judge, s) * 1e6;
    double regexp = best(their_match, s) * 1e9 / children, valid = best(their_valid, s) * 1e9 / children;
    printf(" | %9.2f %10.2f %8.1f %8.1f", xml_read, xml_judge, regexp, valid);
    printf(" | %8.2f %8.2f %8.2f %8.2f", xml_read / read, xml_judge / judge, regexp / match, valid / match);
    free_theirs(s);
#endif
    printf("\n");
    fflush(stdout);
}

/* Children a1 .. an, again and again as long as whole rounds fit the child text, at most so many rounds. */
static void children_of(struct subject *s, size_t rounds)
{
    char round[SLOTS_TEXT_MOST * 2] = "", *at = round;
    for (int name = 1; name <= s->names; name++)
        at += sprintf(at, "a%d ", name);
    s->children[0] = '\0';
    s->count = 0;
    for (at = s->children; rounds > 0 && at + strlen(round) <= s->children + SLOTS_CHILDREN_MOST; rounds--) {
        at = stpcpy(at, round);
        s->count += (size_t)s->names;
    }
}

/* A group of a1 .. an, each with a mark, joined; then the group's mark. */
static void flat(const char *family, int names, const char *mark, char joint, const char *group_mark)
{
    static struct subject s;
    snprintf(s.family, sizeof s.family, "%s", family);
    s.names = names;
    char *at = s.model + sprintf(s.model, "(");
    for (int name = 1; name <= names; name++)
        at += sprintf(at, "a%d%s%c", name, mark, name < names ? joint : ')');
    strcpy(at, group_mark);
    children_of(&s, strcmp(group_mark, "*") == 0 ? SIZE_MAX : 1);
    measure(&s);
}

/* (a1,(a2,(..)*)*)*, to 32 groups with as many names in each as it takes. */
static void nested(int names)
{
    static struct subject s;
    snprintf(s.family, sizeof s.family, "(a1,(..(an)*)*)*");
    s.names = names;
    int each = (names + SLOTS_GROUPS_MOST - 1) / SLOTS_GROUPS_MOST;
    char *at = s.model;
    for (int name = 1; name <= names; name++)
        at += sprintf(at, "%s%sa%d", name > 1 ? "," : "", (name - 1) % each == 0 ? "(" : "", name);
    for (int group = 0; group < names; group += each)
        at = stpcpy(at, ")*");
    children_of(&s, SIZE_MAX);
    measure(&s);
}

int main(void)
{
    static const int sizes[] = {16, 32, 64, 128};
    printf("microseconds to read and to judge, nanoseconds a child to match; best of %d runs\n", RUNS);
    printf("slots_match checks and judges the table on every call; rooms are not cleared between calls\n");
#ifdef WITH_LIBXML2
    printf("libxml2 %s; the last columns are libxml2's time over ours\n", LIBXML_DOTTED_VERSION);
#else
    printf("libxml2 is not installed\n");
#endif
    printf("%-18s %4s %6s %9s %9s %9s", "model", "n", "list", "read us", "judge us", "match ns");
#ifdef WITH_LIBXML2
    printf(" | %9s %10s %8s %8s | %8s %8s %8s %8s", "read us", "judge us", "regexp", "valid", "read", "judge", "regexp",
           "valid");
#endif
    printf("\n");
    for (int size = 0; size < 4; size++)
        flat("(a1|..|an)*", sizes[size], "", '|', "*");
    for (int size = 0; size < 4; size++)
        flat("(a1?,..,an?)", sizes[size], "?", ',', "");
    for (int size = 0; size < 4; size++)
        flat("(a1?,..,an?)*", sizes[size], "?", ',', "*");
    for (int size = 0; size < 4; size++)
        flat("(a1,..,an)*", sizes[size], "", ',', "*");
    for (int size = 0; size < 4; size++)
        nested(sizes[size]);
    flat("(a1,a2,a3)", 3, "", ',', "");
    flat("(a1|a2|a3)*", 3, "", '|', "*");
    flat("(a1*,a2*,a3*)", 3, "*", ',', "");
    return 0;
}
