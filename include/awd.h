/*
 * awd.h: reads AWD 2.1 documents and edits them, for programs in C and C++ (and, by the same layout, Rust).
 *
 * Numbers and slices only. Nothing is allocated, nothing is kept from call to call, nothing is printed, and every call ends. Calls may be
 * made by many threads at once. A call takes less than 1 MiB of stack, and one of a function without layers less than 384 KiB.
 *
 * A slice is a pointer and a count of elements. What a caller owes of every slice, for nothing checks it:
 *  - The pointer is not null and is aligned for its type, also where the count is 0. For an empty slice pass the address of any object of the
 *    type.
 *  - It points to that many elements of one object, which hold values of their type: before a call writes to them, too, for which memory that
 *    was set to 0 will do. They have at most PTRDIFF_MAX bytes in all.
 *  - What a call writes to overlaps no other slice of the same call, and no other thread reads or writes it meanwhile; nor does any write
 *    what the call reads.
 * docs/FORMAT.md says what a document is, and what each call, answer and cause means.
 */
#ifndef AWD_H
#define AWD_H

#include <stdbool.h>
#include <stddef.h>
#include <stdint.h>

#ifdef __cplusplus
extern "C" {
#endif

/* A refusal. Where there is none, everything in it is 0. */
struct awd_fault {
    uint64_t place;
    uint64_t block;
    uint64_t index;      /* 0 where there is no index */
    uint8_t cause;       /* 1 to 28; 0 where nothing is refused */
    uint8_t layer;       /* 0 to 4 */
    bool has_index;
};

/* What the header of an opened document says. */
struct awd_header {
    uint16_t flags;
    uint8_t version;
    uint8_t revision;
};

/* What a taken block tells. What it does not have is 0. */
struct awd_block {
    uint64_t place;      /* of its header */
    uint64_t name_place;
    uint32_t id;
    uint32_t size;       /* of its body */
    uint32_t parent;
    uint16_t name_length;
    uint8_t name_space;
    uint8_t kind;
    bool has_parent;
    bool has_name;
};

/* What comes of listing a document. */
struct awd_listing {
    uint64_t length;           /* the document's, in bytes */
    uint64_t count;            /* the blocks that were taken */
    struct awd_fault fault;    /* none where the blocks use the bytes up */
    struct awd_header header;  /* all 0 where the opening was refused */
    bool opened;
};

/*
 * Opens a document and takes its blocks until the bytes are used up or something is refused. The first blocks, as many as there is room for,
 * are written; count tells all of them, also those for which there was no room. The rest of blocks is left as it was.
 */
struct awd_listing awd_list(const uint8_t *document, size_t length, struct awd_block *blocks, size_t room);

/* What a call is: awd_call.what. Any other number is no call. */
enum {
    AWD_CALL_OPEN = 0,
    AWD_CALL_NEXT = 1,
    AWD_CALL_REPARENT = 2,       /* number: the block; address: the parent's */
    AWD_CALL_DRESS = 3,          /* number: the mesh instance; which: the position; address: the material's */
    AWD_CALL_NUDGE_SINGLE = 4,   /* number: the block; which: the cell; content: the bits of a single float (above 32 bits: no call) */
    AWD_CALL_NUDGE_DOUBLE = 5,   /* number: the block; which: the cell; content: the bits of a double float */
    AWD_CALL_UNDO = 6,
    AWD_CALL_COUNT = 7,          /* of the blocks that are taken */
    AWD_CALL_EDITS = 8,          /* of the edits that stand */
    AWD_CALL_RECORD = 9,         /* number: the block */
    AWD_CALL_NUMBER = 10,        /* address: the ID */
    AWD_CALL_MATERIAL = 11,      /* number: the mesh instance; which: the position */
    AWD_CALL_CELL = 12,          /* number: the block; which: the cell */
    AWD_CALL_PATH = 13,          /* number: the block */
    AWD_CALL_LENGTH = 14,        /* of the session's bytes */
    AWD_CALL_BYTE = 15           /* number: the place */
};

/* A call of a session. Fields that the call does not name are not looked at. */
struct awd_call {
    uint64_t number;
    uint64_t which;
    uint64_t content;
    uint32_t address;
    uint32_t what;
};

/* What an answer is: awd_answer.what. */
enum {
    AWD_ANSWER_NO_CALL = 0,      /* what was given is no call; nothing was done */
    AWD_ANSWER_REFUSED = 1,      /* fault says why; the session is as it was */
    AWD_ANSWER_DONE = 2,
    AWD_ANSWER_OPENED = 3,       /* header */
    AWD_ANSWER_NONE = 4,         /* there is none of what was asked for; of next: the bytes are used up */
    AWD_ANSWER_NUMBER = 5,       /* number: of a block, of blocks, of edits, of parents, of bytes; an address; a byte */
    AWD_ANSWER_BLOCK = 6,        /* block */
    AWD_ANSWER_SINGLE = 7,       /* number: the bits of a single float; one that is not a number has 0x7fc00000 */
    AWD_ANSWER_DOUBLE = 8        /* number: the bits of a double float; one that is not a number has 0x7ff8000000000000 */
};

/* What a call answers. What an answer does not say is 0. */
struct awd_answer {
    uint64_t number;
    struct awd_fault fault;
    struct awd_block block;
    struct awd_header header;
    uint32_t what;
};

/*
 * Makes calls one after another on one session over a document, from its making on, and writes what each answers. As many calls are made as
 * both arrays hold; the number of them is the result.
 */
size_t awd_replay(const uint8_t *document, size_t length, const struct awd_call *calls, size_t count, struct awd_answer *answers, size_t room);

/*
 * Makes calls as awd_replay does, without their answers, and copies the session's bytes, which are the document's with the standing edits
 * laid over them, to the start of a buffer. Refused with 26 where the buffer is shorter than the document; then the buffer is as it was.
 */
struct awd_fault awd_save(const uint8_t *document, size_t length, const struct awd_call *calls, size_t count, uint8_t *buffer, size_t room);

/*
 * The same over a session over a session over a window over pages. The listed pages of a run, each of 512 bytes, joined and cut to size
 * bytes, are the pages (refused with 27 or 28: then no call is made and nothing is written). The window shows at most shown bytes of them
 * from start on. lower are calls of a session over the window, made first; calls are those of a session over that session. Where answers are
 * written to, they are those of the upper session, as many as awd_replay would make; the other one copies the upper session's bytes as
 * awd_save does.
 */
struct awd_fault awd_replay_layers(const uint8_t *run, size_t length, const uint16_t *pages, size_t page_count, uint64_t size, uint64_t start,
    uint64_t shown, const struct awd_call *lower, size_t lower_count, const struct awd_call *calls, size_t count,
    struct awd_answer *answers, size_t room);
struct awd_fault awd_save_layers(const uint8_t *run, size_t length, const uint16_t *pages, size_t page_count, uint64_t size, uint64_t start,
    uint64_t shown, const struct awd_call *lower, size_t lower_count, const struct awd_call *calls, size_t count,
    uint8_t *buffer, size_t room);

/* What the value of an attribute is: awd_attribute.meaning. */
enum {
    AWD_VALUE_TEXT = 0,          /* bytes of a text */
    AWD_VALUE_RAW = 1,           /* raw bytes */
    AWD_VALUE_SIGNED = 2,        /* number: in two's complement of 64 bits */
    AWD_VALUE_UNSIGNED = 3,      /* number */
    AWD_VALUE_SINGLE = 4,        /* number: the bits, as in an answer */
    AWD_VALUE_DOUBLE = 5,        /* number: the bits, as in an answer */
    AWD_VALUE_YES_NO = 6         /* number: 1 for yes, 0 for no */
};

/* A user attribute. Places are counted from the start of the part that is read. */
struct awd_attribute {
    uint64_t key_place;
    uint64_t key_length;
    uint64_t value_place;
    uint64_t value_length;
    uint64_t number;             /* 0 of a text and of raw bytes */
    uint8_t name_space;
    uint8_t type;                /* as the file has it */
    uint8_t meaning;
};

/* What comes of reading attributes. */
struct awd_attributes {
    uint64_t count;              /* the attributes that were read */
    struct awd_fault fault;      /* none where the part is used up */
};

/*
 * Reads the user attributes that stand one after another in a part: what is between a user list's total and its end. The first of them, as
 * many as there is room for, are written; count tells all of them.
 */
struct awd_attributes awd_read_attributes(const uint8_t *part, size_t length, struct awd_attribute *attributes, size_t room);

/* Writes a cause in words (not ended by 0) to a buffer, as much of it as there is room for; the result is its whole length, 0 for no cause. */
size_t awd_cause_text(uint8_t cause, uint8_t *buffer, size_t room);

#ifdef __cplusplus
}
#endif

#endif
