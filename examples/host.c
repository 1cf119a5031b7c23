/* A host on a page: one box, driven by lines of text. It reads what the program jargulmet reads and prints what that
 * prints. Standard output stands for the disk and for the links; standard error for the plant, which gets the orders
 * that are handed out, as their bytes. */
#include <stdio.h>
#include <string.h>

#include "jargulmet.h"

static uint64_t box[BOX_NUMBERS];
static uint32_t terms[LOG_LENGTH];
static uint64_t orders[LOG_LENGTH];
static uint8_t line[LINE_BYTES], messages[MESSAGES_BYTES];
static uint64_t sizes[2];

/* Reads a line with its line feed, and says how long it is; 0: there is none. One that is too long comes without. */
static size_t read_line(uint8_t *text, size_t room) {
    size_t length = 0;
    for (int c; (c = getchar()) != EOF;) {
        if (length < room) text[length++] = (uint8_t)c;
        if (c == '\n') return length;
    }
    return 0;
}

/* The bytes that a line of lower-case digits spells. */
static int bytes_in(const uint8_t *text, size_t length, uint8_t *bytes, size_t count) {
    static const char digits[] = "0123456789abcdef";
    if (length != 2 * count + 1 || text[2 * count] != '\n') return 0;
    for (size_t i = 0; i < count; i++) {
        const char *high = memchr(digits, text[2 * i], 16), *low = memchr(digits, text[2 * i + 1], 16);
        if (!high || !low) return 0;
        bytes[i] = (uint8_t)((high - digits) * 16 + (low - digits));
    }
    return 1;
}

/* The event that a line is: a timeout, a prompt, an order, or a frame that came in. */
static uint8_t event(const uint8_t *text, size_t length) {
    uint8_t order[8];
    if (length == 2 && text[0] == 't')
        return box_timeout(box, terms, orders, line, sizeof line, messages, sizeof messages, sizes);
    if (length == 2 && text[0] == 'p')
        return box_prompt(box, terms, orders, line, sizeof line, messages, sizeof messages, sizes);
    if (text[0] == 'o' && bytes_in(text + 1, length - 1, order, 8))
        return box_order(order_from_bytes(order), box, terms, orders, line, sizeof line, messages, sizeof messages,
                         sizes);
    return box_receive(text, length, box, terms, orders, line, sizeof line, messages, sizeof messages, sizes);
}

/* Behind an event: the line first, whole and on the disk (a real host syncs it), and only then the messages. Where the
 * line cannot be made whole the box is gone, and comes back by journal_open. */
static int store_and_send(void) {
    if (fwrite(line, 1, sizes[0], stdout) != sizes[0]) return 0;
    return fwrite(messages, 1, sizes[1], stdout) == sizes[1];
}

/* The plant gets each order that is handed out, in order and once. A leader's blank has an index too, but is nobody's
 * order, and is passed over. */
static void hand_out(void) {
    static uint64_t given;
    uint64_t count = 0;
    for (box_handed_out(box, terms, orders, &count); given < count; given++) {
        uint8_t order[8];
        if (orders[given] == ORDER_BLANK) continue;
        order_to_bytes(orders[given], order);
        for (int i = 0; i < 8; i++) fprintf(stderr, i < 7 ? "%02x" : "%02x\n", order[i]);
    }
}

/* The first line is the head of the box that is to be started: 01, 11, its number, its mask. */
int main(void) {
    uint8_t text[FRAME_BYTES + 1], head[4];
    setvbuf(stdout, NULL, _IONBF, 0); /* what is written is out */
    size_t length = read_line(text, sizeof text);
    if (length == 0) return 0;
    int is_head = bytes_in(text, length, head, 4) && head[0] == 0x01 && head[1] == 0x11;
    if (!is_head || box_start(head[2], head[3], box, line, sizeof line) != 256 * HEAD_BYTES) {
        printf("n%d\n", ANSWER_BAD_RECORD);
        return 0;
    }
    fwrite(line, 1, HEAD_BYTES, stdout);
    while ((length = read_line(text, sizeof text)) != 0) {
        uint8_t answer = event(text, length);
        if (answer != ANSWER_DONE) printf("n%d\n", answer); /* nothing changed; 6, 7 and 8 are for a person */
        else if (store_and_send()) hand_out();
        else return 1;
    }
    return 0;
}
