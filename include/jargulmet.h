/* Jargulmet for C and C++: the functions of crates/abi_c, as libabi.a has them (tests/kit_build; x86-64 Linux).
 *
 * What is lent. The library allocates nothing, keeps no pointer and has no memory of its own: all that a call
 * works on is lent to it for that call, and calls on different boxes may run side by side. No pointer is null,
 * also where its length is 0; each is aligned for its type. A length behind a pointer counts bytes; an array has
 * at least the elements that its parameter shows. What one call is lent must not overlap. Beyond that any
 * contents are taken, any bytes and any numbers. docs/ASSUMPTIONS.md says how much stack a call needs.
 *
 * The host's duties. The library decides; storing, sending and keeping time are the host's. One box for each
 * number; the journal line on the disk before a message leaves; a lost journal is never a fresh box. docs/HOST.md
 * has all of them, examples/host.c is a host on a page.
 *
 * What is promised. Each call's answer and all that it leaves in what it was lent, to the byte, is proved:
 * crates/abi_c/src has the contracts, crates/abi/specs what they mean. */
#ifndef JARGULMET_H
#define JARGULMET_H

#include <stddef.h>
#include <stdint.h>

#ifdef __cplusplus
extern "C" {
#endif

/* Limits. With LINE_BYTES and MESSAGES_BYTES lent, no event answers 5. Line feeds are counted. */
enum {
    BOX_COUNT = 7,       /* boxes have the numbers 1 to 7 */
    LOG_LENGTH = 256,    /* entries of a log */
    FRAME_ENTRIES = 4,   /* entries of a frame, or of a journal line */
    FRAME_BYTES = 131,   /* the longest frame */
    HEAD_BYTES = 9,      /* a journal's first line */
    LINE_BYTES = 119,    /* its longest other line */
    MESSAGES_BYTES = 786 /* all messages of an event */
};

/* Answers. Checked in the order 12, 1, 2, 3, 13, 4, 9, 6, 7, 8, 5; on opening 11, 10. */
enum {
    ANSWER_DONE = 0,
    ANSWER_NO_FRAME = 1,    /* the bytes, or the numbers to be written, are not one frame */
    ANSWER_NOT_FOR_US = 2,  /* not to this box, from itself, or from a non-member */
    ANSWER_NOT_LEADER = 3,  /* an order or a prompt, not leader */
    ANSWER_LOG_FULL = 4,    /* an order, and the log holds 256 */
    ANSWER_NO_ROOM = 5,     /* head, line or messages are longer than the room lent */
    ANSWER_ALARM_LEADS = 6, /* alarm: an append of the box's own term, and it leads */
    ANSWER_ALARM_CUT = 7,   /* alarm: an append would cut at or below commit */
    ANSWER_ALARM_PAST = 8,  /* alarm: an append answer names an index past the leader's log */
    ANSWER_LAST_TERM = 9,   /* a timeout in the last term */
    ANSWER_BAD_LINE = 10,   /* opening: a whole line after the head breaks a rule */
    ANSWER_NO_HEAD = 11,    /* opening: no whole line, or the first is no proper head */
    ANSWER_BAD_RECORD = 12, /* starting: bad box or mask; otherwise: the numbers break a rule of the record */
    ANSWER_BLANK = 13       /* an order of eight zeros, and the box leads: no client may send the blank */
};

/* A box is 22 numbers and its log: entry i at terms[i - 1] and orders[i - 1], the same two arrays at every call.
 * A host may read all of it and changes nothing in it. */
enum {
    BOX_ME = 0,
    BOX_MEMBERS = 1, /* mask: box i has bit i - 1 */
    BOX_TERM = 2,
    BOX_VOTE = 3, /* 0: nobody */
    BOX_LAST = 4, /* entries in the log */
    BOX_COMMIT = 5,
    BOX_ROLE = 6,
    BOX_VOTES = 7,  /* mask */
    BOX_NEXT = 8,   /* next of box i at BOX_NEXT + i - 1 */
    BOX_MATCH = 15, /* match of box i at BOX_MATCH + i - 1 */
    BOX_NUMBERS = 22
};

enum { ROLE_FOLLOWER = 0, ROLE_CANDIDATE = 1, ROLE_LEADER = 2 };

/* Starts box `me` of the members in the mask. Done: answers 256 * HEAD_BYTES, the box's numbers are stored, and
 * the head stands at the room's start. Otherwise 12 or 5, and nothing is written. */
uint64_t box_start(uint8_t me, uint8_t mask, uint64_t box[BOX_NUMBERS], uint8_t *room, size_t room_bytes);

/* The events. 0: the numbers and the log are the next box's, stored over the last one's. The journal line is the
 * first sizes[0] bytes of `journal` (0: there is none), the messages are the first sizes[1] bytes of `room`, one
 * a line. What is behind them stays as it was. Any other answer: nothing is written. */

/* An election timeout: 0, 12, 9 or 5. A box that is alone leads by it and adds its blank. */
uint8_t box_timeout(uint64_t box[BOX_NUMBERS], uint32_t terms[LOG_LENGTH], uint64_t orders[LOG_LENGTH],
                    uint8_t *journal, size_t journal_bytes, uint8_t *room, size_t room_bytes, uint64_t sizes[2]);

/* A prompt, which has a leader send its appends: 0, 12, 3 or 5. */
uint8_t box_prompt(uint64_t box[BOX_NUMBERS], const uint32_t terms[LOG_LENGTH],
                   const uint64_t orders[LOG_LENGTH], uint8_t *journal, size_t journal_bytes, uint8_t *room,
                   size_t room_bytes, uint64_t sizes[2]);

/* An order, which order_from_bytes makes of its 8 bytes: 0, 12, 3, 13, 4 or 5. */
uint8_t box_order(uint64_t order, uint64_t box[BOX_NUMBERS], uint32_t terms[LOG_LENGTH],
                  uint64_t orders[LOG_LENGTH], uint8_t *journal, size_t journal_bytes, uint8_t *room,
                  size_t room_bytes, uint64_t sizes[2]);

/* Bytes that came in, any: one frame has its line feed. 0, 12, 1, 2, 6, 7, 8 or 5. */
uint8_t box_receive(const uint8_t *text, size_t text_bytes, uint64_t box[BOX_NUMBERS],
                    uint32_t terms[LOG_LENGTH], uint64_t orders[LOG_LENGTH], uint8_t *journal,
                    size_t journal_bytes, uint8_t *room, size_t room_bytes, uint64_t sizes[2]);

/* How many entries are handed out, from the first on. 0 and the count stored, or 12 and the count as it was. */
uint8_t box_handed_out(const uint64_t box[BOX_NUMBERS], const uint32_t terms[LOG_LENGTH],
                       const uint64_t orders[LOG_LENGTH], uint64_t *count);

/* An order is 8 bytes as they stand. The calls and the log have it as a number, the first byte highest, and this
 * is the way there and back. (8 bytes copied into a uint64_t are another order on another chip.) */
uint64_t order_from_bytes(const uint8_t bytes[8]);
void order_to_bytes(uint64_t order, uint8_t bytes[8]);

/* A box that wins adds an entry of this order, eight zero bytes, unless its log is full. It is handed out like any
 * entry; no client sent it, and a host passes over it. */
enum { ORDER_BLANK = 0 };

/* Opens the whole journal of box `me`. 0: the numbers and the log are stored, and the next line is written at byte
 * sizes[0]. 10: sizes[1] is the number of the first line that breaks a rule, the head being 1. 11: no journal of
 * this box. All else stays as it was. */
uint8_t journal_open(uint8_t me, const uint8_t *text, size_t text_bytes, uint64_t box[BOX_NUMBERS],
                     uint32_t terms[LOG_LENGTH], uint64_t orders[LOG_LENGTH], uint64_t sizes[2]);

/* For a journal that is longer than memory: one whole line behind the head, with its line feed, over the box so far,
 * which is at first a started one. 0: the numbers and the log are the next ones. 10, or 12 where a number does not
 * fit its field: nothing is written. */
uint8_t journal_replay(const uint8_t *text, size_t text_bytes, uint64_t box[BOX_NUMBERS],
                       uint32_t terms[LOG_LENGTH], uint64_t orders[LOG_LENGTH]);

/* A frame is 17 numbers, 0 for what its kind does not have. */
enum {
    FRAME_KIND = 0,
    FRAME_FROM = 1,
    FRAME_TO = 2,
    FRAME_TERM = 3,
    FRAME_INDEX = 4, /* last index; previous index; the index that an append answer names */
    FRAME_PRIOR = 5, /* last term; previous term */
    FRAME_COMMIT = 6,
    FRAME_REPLY = 7, /* 1: yes */
    FRAME_COUNT = 8,
    FRAME_TERMS = 9,   /* the term of the entry k, from 0 on, at FRAME_TERMS + 2 * k */
    FRAME_ORDERS = 10, /* its order at FRAME_ORDERS + 2 * k */
    FRAME_NUMBERS = 17
};

enum { KIND_VOTE_REQUEST = 1, KIND_VOTE_ANSWER = 2, KIND_APPEND = 3, KIND_APPEND_ANSWER = 4 };

/* Reads one frame with its line feed: 0 and its numbers stored, or 1 and the numbers as they were. */
uint8_t frame_read(const uint8_t *text, size_t text_bytes, uint64_t numbers[FRAME_NUMBERS]);

/* Writes a frame, which its line feed ends, at the room's start: 0. Or 1 or 5, and nothing is written. */
uint8_t frame_write(const uint64_t numbers[FRAME_NUMBERS], uint8_t *room, size_t room_bytes);

#ifdef __cplusplus
}
#endif

#endif
