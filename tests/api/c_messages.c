/*
 * Tries the calls that take no bytes with every value of each flag and number: those about a
 * message, about versions and about texts of errors. Also compiles as C++.
 */
#include "check.h"

#include <stdlib.h>

/* Returns a message whose fields are all different, in memory of its own, which ends at its end. */
static struct sockdiag_message *new_message(void) {
    struct sockdiag_message *message = (struct sockdiag_message *)malloc(sizeof *message);
    if (message == NULL)
        exit(1);
    memset(message, 0, sizeof *message);
    message->offset = 0x10;
    message->length = 0x20;
    message->message_type = SOCKDIAG_SOCK_DIAG_BY_FAMILY;
    message->flags = 2;
    message->sequence_number = 0x01020304;
    message->port_number = 0x05060708;
    return message;
}

/* Each message type, and each set of flags. */
static void each_type_and_flag(void) {
    struct sockdiag_message *it = new_message();
    uint32_t number, wrong = 0;
    for (number = 0; number <= UINT16_MAX; number++) {
        it->message_type = (uint16_t)number;
        /* NLMSG_ERROR and NLMSG_DONE, of linux/netlink.h. */
        wrong += sockdiag_ends_answer(it) != (uint32_t)(number == 2 || number == 3);
        it->message_type = SOCKDIAG_SOCK_DIAG_BY_FAMILY;
        it->flags = (uint16_t)number;
        /* NLM_F_DUMP_INTR. */
        wrong += sockdiag_is_interrupted(it) != (uint32_t)(number >> 4 & 1);
        wrong += sockdiag_is_answer(it, 0x01020304, 0x05060708) != 1;
        it->flags = 2;
    }
    check(wrong == 0, "the end and the flags of a message");
    free(it);
}

/* Each bit of both numbers, and numbers that are 0. */
static void each_bit_of_an_answer(void) {
    struct sockdiag_message *it = new_message();
    unsigned bit;
    check(sockdiag_is_answer(it, 0x01020304, 0x05060708) == 1, "an answer");
    check(sockdiag_is_answer(it, 0x05060708, 0x01020304) == 0, "numbers in the wrong order");
    for (bit = 0; bit < 32; bit++) {
        check(sockdiag_is_answer(it, 0x01020304 ^ 1u << bit, 0x05060708) == 0, "another number");
        check(sockdiag_is_answer(it, 0x01020304, 0x05060708 ^ 1u << bit) == 0, "another port id");
    }
    check(sockdiag_is_answer(it, 0, 0x05060708) == 0, "a request without a number");
    check(sockdiag_is_answer(it, 0x01020304, 0) == 0, "a socket without a port id");
    it->sequence_number = 0;
    check(sockdiag_is_answer(it, 0x01020304, 0x05060708) == 0, "a message without a number");
    check(sockdiag_is_answer(it, 0, 0x05060708) == 1, "two numbers that are 0");
    it->port_number = 0;
    check(sockdiag_is_answer(it, 0, 0x05060708) == 0, "a message without a port id");
    check(sockdiag_is_answer(it, 0, 0) == 1, "four numbers that are 0");
    free(it);
}

/* Each number that is a byte, and each bit, has a text. Each error has another one. */
static void each_text_of_an_error(void) {
    const uint32_t least = SOCKDIAG_BUFFER_TOO_SMALL, most = SOCKDIAG_ENVELOPE_LENGTH_PAST;
    const char *unknown = "unknown error code";
    uint32_t code, other;
    unsigned bit;
    check(strcmp(sockdiag_error_text(SOCKDIAG_OK), "no error") == 0, "the text of no error");
    for (code = 1; code <= UINT16_MAX; code++) {
        const char *text = sockdiag_error_text(code);
        const int is_known = (code >= least && code <= most) ||
            (code >= SOCKDIAG_ITEM && code <= SOCKDIAG_FILTER_TOO_LONG);
        if (text == NULL || (strcmp(text, unknown) != 0) != is_known)
            check(0, "the text of a number");
    }
    for (bit = 16; bit < 32; bit++)
        check(strcmp(sockdiag_error_text(least | 1u << bit), unknown) == 0, "a large number");
    for (code = least; code <= most; code++) {
        const char *text = sockdiag_error_text(code);
        check(strlen(text) > 8 && strchr(text, '{') == NULL, "a text without values");
        for (other = least; other < code; other++)
            check(strcmp(text, sockdiag_error_text(other)) != 0, "two texts");
    }
    check(strcmp(sockdiag_error_text(least), "buffer of too few bytes") == 0, "the first text");
    check(strcmp(sockdiag_error_text(most), "message length is past the bytes given") == 0,
          "the last text");
}

int main(void) {
    each_type_and_flag();
    each_bit_of_an_answer();
    each_text_of_an_error();
    return end_of_tests("c_messages");
}
