/*
 * Lists a document, edits it, and prints what the edits change; then reads user attributes of a part of their own.
 * usage: kitchen DOCUMENT (of at most 65,536 bytes and three blocks or more)
 */
#include "awd.h"

#include <inttypes.h>
#include <stdio.h>
#include <string.h>

#define COUNT(array) (sizeof(array) / sizeof(array)[0])

static uint8_t document[65536];
static uint8_t edited[sizeof document];

static void print_fault(const struct awd_fault *fault)
{
    uint8_t text[80] = {0};
    size_t length = awd_cause_text(fault->cause, text, sizeof text);
    if (length > sizeof text)
        length = sizeof text;
    printf("refused with %u, %.*s: ", fault->cause, (int)length, (const char *)text);
    printf("place %" PRIu64 ", block %" PRIu64 ", layer %u", fault->place, fault->block, fault->layer);
    if (fault->has_index)
        printf(", entry %" PRIu64, fault->index);
    putchar('\n');
}

static void print_block(const struct awd_block *block)
{
    printf("id %" PRIu32 ", kind %u, place %" PRIu64 ", body %" PRIu32, block->id, block->kind, block->place, block->size);
    if (block->has_parent)
        printf(", parent %" PRIu32, block->parent);
    if (block->has_name)
        printf(", name \"%.*s\"", block->name_length, (const char *)document + block->name_place);
    putchar('\n');
}

static void list(size_t length)
{
    struct awd_block blocks[512] = {0};
    struct awd_listing listing = awd_list(document, length, blocks, COUNT(blocks));
    if (listing.opened)
        printf("AWD %u.%u, %" PRIu64 " bytes\n", listing.header.version, listing.header.revision, listing.length);
    for (uint64_t number = 0; number < listing.count; number++) {
        printf("block %" PRIu64 ": ", number);
        print_block(&blocks[number]);
    }
    if (listing.fault.cause != 0)
        print_fault(&listing.fault);
}

static float single(uint64_t bits)
{
    uint32_t word = (uint32_t)bits;
    float value;
    memcpy(&value, &word, sizeof value);
    return value;
}

static void print_answer(const struct awd_answer *answer)
{
    switch (answer->what) {
    case AWD_ANSWER_NO_CALL: puts("no call"); break;
    case AWD_ANSWER_REFUSED: print_fault(&answer->fault); break;
    case AWD_ANSWER_DONE: puts("done"); break;
    case AWD_ANSWER_OPENED: printf("opened %u.%u\n", answer->header.version, answer->header.revision); break;
    case AWD_ANSWER_NONE: puts("none"); break;
    case AWD_ANSWER_NUMBER: printf("%" PRIu64 "\n", answer->number); break;
    case AWD_ANSWER_BLOCK: print_block(&answer->block); break;
    case AWD_ANSWER_SINGLE: printf("single %g\n", (double)single(answer->number)); break;
    default: printf("double, bits %" PRIx64 "\n", answer->number); break;
    }
}

/* Takes three blocks, tries to put the last one into the first and then puts it to the root, and moves it by 1.5. */
static const struct awd_call calls[] = {
    {.what = AWD_CALL_OPEN},
    {.what = AWD_CALL_NEXT},
    {.what = AWD_CALL_NEXT},
    {.what = AWD_CALL_NEXT},
    {.what = AWD_CALL_NEXT},
    {.what = AWD_CALL_REPARENT, .number = 2, .address = 1},
    {.what = AWD_CALL_REPARENT, .number = 2, .address = 0},
    {.what = AWD_CALL_NUDGE_SINGLE, .number = 2, .which = 9, .content = 0x3fc00000},
    {.what = AWD_CALL_RECORD, .number = 2},
    {.what = AWD_CALL_CELL, .number = 2, .which = 9},
    {.what = AWD_CALL_EDITS},
    {.what = 99},
};

static void edit(size_t length)
{
    struct awd_answer answers[COUNT(calls)] = {0};
    size_t made = awd_replay(document, length, calls, COUNT(calls), answers, COUNT(answers));
    for (size_t i = 0; i < made; i++) {
        printf("call %zu: ", i);
        print_answer(&answers[i]);
    }
    struct awd_fault fault = awd_save(document, length, calls, COUNT(calls), edited, sizeof edited);
    if (fault.cause != 0)
        print_fault(&fault);
    for (size_t i = 0; i < length; i++)
        if (edited[i] != document[i])
            printf("byte %zu: %u, was %u\n", i, edited[i], document[i]);
}

/* width, a signed number of 4 bytes: -7; wood, a text: oak; and a value of type 9, which there is not */
static const uint8_t part[] = "\1\5\0width\3\4\0\0\0\xf9\xff\xff\xff" "\1\4\0wood\37\3\0\0\0oak" "\1\0\0\11\0\0\0\0";

static void read_attributes(void)
{
    struct awd_attribute attributes[8] = {0};
    struct awd_attributes read = awd_read_attributes(part, sizeof part - 1, attributes, COUNT(attributes));
    for (uint64_t i = 0; i < read.count && i < COUNT(attributes); i++) {
        const struct awd_attribute *attribute = &attributes[i];
        printf("attribute %.*s: ", (int)attribute->key_length, (const char *)part + attribute->key_place);
        if (attribute->meaning == AWD_VALUE_SIGNED)
            printf("%" PRId64 "\n", (int64_t)attribute->number);
        else
            printf("%.*s\n", (int)attribute->value_length, (const char *)part + attribute->value_place);
    }
    if (read.fault.cause != 0)
        print_fault(&read.fault);
}

int main(int argc, char **argv)
{
    FILE *file = argc == 2 ? fopen(argv[1], "rb") : NULL;
    if (file == NULL) {
        fputs("usage: kitchen DOCUMENT\n", stderr);
        return 1;
    }
    size_t length = fread(document, 1, sizeof document, file);
    fclose(file);
    list(length);
    edit(length);
    read_attributes();
    return 0;
}
