/* The receiving half of an I2P stream, for hosts: libhost_library.a, made by `rt lib` in crates/host_library, for Linux on x86-64.
 *
 * Every call is total: whatever the bytes, numbers and states, it ends, reads and writes only what it was lent, and answers. No call
 * keeps a pointer, allocates, waits or locks. What each does is proved; the definitions are in crates/host_numbers/specs and those that they name.
 *
 * What the host owes, since C cannot check it: a pointer is to as many bytes as the length after it says, and to one struct where none
 * does; it may be anything but null where the length is 0; what a call may change overlaps nothing else that the call is lent.
 *
 * Calls on different states and buffers may run at once, two on one state may not. It needs memcpy and memset. SYNCHRONIZE, CLOSE, RESET and
 * NO ACK are only reported: what they mean is the host's. A plain acknowledgement has the number 0, which accept refuses with 13. This header
 * is for C11, compiled by GCC or Clang.
 *
 * A refusal is a number, 1 to 25 from document 01's table or 30 of a serial line, and 0 is none. A refused call changes nothing that it was lent. */
#ifndef DIGITMEADOW_H
#define DIGITMEADOW_H

/* The widths, by what the compiler itself knows, so that this header needs no other. */
typedef __UINT8_TYPE__ digitmeadow_u8;
typedef __UINT16_TYPE__ digitmeadow_u16;
typedef __UINT32_TYPE__ digitmeadow_u32;
typedef __SIZE_TYPE__ digitmeadow_size;

/* A stream's id and a packet's sequence number: two kinds, so that neither is handed over for the other. */
struct digitmeadow_stream_id {
    digitmeadow_u32 id;
};

struct digitmeadow_seq_no {
    digitmeadow_u32 number;
};

/* A receiver's state. The host keeps it and lends it, beside a store of exactly 512 * slot bytes. Made by hand or damaged, it is
 * refused with 11 unless it keeps document 01's rules. */
struct digitmeadow_receiver {
    digitmeadow_u32 slot;        /* the slot size S, 1 to 1,812 */
    struct digitmeadow_seq_no start;    /* the number that the start came after */
    struct digitmeadow_seq_no next;     /* the next number to take */
    struct digitmeadow_seq_no highest;  /* the highest number accepted, or the one that the start came after */
    digitmeadow_u16 marks[512];  /* a slot's mark: 0 where it is free, the held payload's length and one where it is not */
};

/* A reader of packets on a serial line, each behind its length, two bytes, the high one first. The host keeps it and hands it in and out by value, beside
 * one buffer. Made by hand or damaged, it is refused with 11 unless a start and calls could leave it. */
struct digitmeadow_line {
    digitmeadow_size room;       /* the buffer's length at the start */
    digitmeadow_u32 phase;       /* 0: nothing is there; 1: half a length; 2: a length, and fewer bytes than that; 3: stopped */
    digitmeadow_u32 high;        /* phase 1: the high byte of the length, else 0 */
    digitmeadow_size size;       /* phase 2: the length, else 0 */
    digitmeadow_size there;      /* phase 2: how many of its bytes stand at the buffer's front, else 0 */
};

/* What a portion came to. */
struct digitmeadow_heard {
    struct digitmeadow_line reader;  /* the reader from now on */
    digitmeadow_u32 refusal;
    digitmeadow_size length;     /* a packet of this length stands at the buffer's front; 0 where more is wanted */
    digitmeadow_size used;       /* how many bytes of the portion were used: the others are offered again */
};

/* A refusal's number, or 0 and how many bytes were copied or written. */
struct digitmeadow_counted {
    digitmeadow_u32 refusal;
    digitmeadow_size count;
};

/* Where a number stands in a receiver. */
struct digitmeadow_stand {
    digitmeadow_u32 refusal;             /* 11 or 10, or 0 */
    digitmeadow_u32 reason;              /* one of the eight below, or 0 where it is refused */
    struct digitmeadow_seq_no smallest;  /* the smallest missing number, where the piece is held behind a gap; else 0 */
};

enum {
    DIGITMEADOW_LAST_NUMBER = 1,    /* the number 4,294,967,295, which no packet can use */
    DIGITMEADOW_BELOW_START = 2,    /* at or below the number that the start came after: this receiver never waits for it */
    DIGITMEADOW_TAKEN = 3,          /* delivered: it was taken */
    DIGITMEADOW_READY = 4,          /* held, with nothing missing below it: the host has only to take */
    DIGITMEADOW_BEHIND_GAP = 5,     /* held, but it waits for the smallest missing number, which is named */
    DIGITMEADOW_MISSING = 6,        /* it was never accepted, though a later one was */
    DIGITMEADOW_NOT_YET_SEEN = 7,   /* neither it nor a later one was accepted so far */
    DIGITMEADOW_BEYOND_SPAN = 8     /* 512 or more from the next to take: it would be refused with 14 now */
};

/* Where a part of a packet stands in the packet. An absent part has no byte. */
struct digitmeadow_part {
    digitmeadow_size at;
    digitmeadow_size len;
};

/* A packet as it is read. Where the read is refused, every other number is 0 and every part is empty. */
struct digitmeadow_fields {
    digitmeadow_u32 refusal;
    struct digitmeadow_stream_id send_stream_id;
    struct digitmeadow_stream_id recv_stream_id;
    struct digitmeadow_seq_no seq_nro;
    struct digitmeadow_seq_no ack_through;
    digitmeadow_u16 flags;
    digitmeadow_u16 delay;       /* 0 where bit 6 is clear */
    digitmeadow_u16 max_size;    /* 0 where bit 7 is clear */
    digitmeadow_u8 resend_delay;
    digitmeadow_size leftover;   /* how many option bytes stand after the last option */
    struct digitmeadow_part nacks;  /* four bytes each, big-endian */
    struct digitmeadow_part destination;
    struct digitmeadow_part signature;
    struct digitmeadow_part payload;
};

_Static_assert(sizeof(struct digitmeadow_receiver) == 1040, "a receiver's state is 1,040 bytes");
_Static_assert(sizeof(struct digitmeadow_counted) == 16, "an answer with a count is 16 bytes");
_Static_assert(sizeof(struct digitmeadow_stand) == 12, "where a number stands is 12 bytes");
_Static_assert(sizeof(struct digitmeadow_fields) == 104, "a packet's fields are 104 bytes");
_Static_assert(sizeof(struct digitmeadow_line) == 32, "a line's reader is 32 bytes");
_Static_assert(sizeof(struct digitmeadow_heard) == 56, "what a portion came to is 56 bytes");

/* Reads a packet: every field, or refusal 1 to 6. Any bytes are answered. */
struct digitmeadow_fields digitmeadow_read(const digitmeadow_u8 *packet, digitmeadow_size length);

/* Starts a receiver after the number s, with slots of slot bytes: next is s + 1. Gives 0, or 10 where the slot size or the store's
 * length is wrong, or 12 where s is 4,294,967,295. The store is only measured. The state is lent as 1,040 bytes, whatever they hold; a
 * refused start leaves them as they were. */
digitmeadow_u32 digitmeadow_start(
    struct digitmeadow_receiver *r, struct digitmeadow_seq_no s, digitmeadow_u32 slot, const digitmeadow_u8 *store, digitmeadow_size store_length);

/* Accepts a packet's payload under its number, empty ones too: it stands in the store until it is taken. Gives 0, or 11, 10, 12, 13,
 * 14, 15 or 16, the first of these that applies. */
digitmeadow_u32 digitmeadow_accept(
    struct digitmeadow_receiver *r, struct digitmeadow_seq_no number, const digitmeadow_u8 *payload, digitmeadow_size payload_length,
    digitmeadow_u8 *store, digitmeadow_size store_length);

/* Takes the next payload, if it is held: copies it to the output's front, frees its slot, and gives its length. Refused with 11, 10,
 * 17 where nothing is ready, or 7 where the output is shorter than the payload. */
struct digitmeadow_counted digitmeadow_take(
    struct digitmeadow_receiver *r, const digitmeadow_u8 *store, digitmeadow_size store_length, digitmeadow_u8 *output, digitmeadow_size output_length);

/* Writes the plain acknowledgement of a receiver to the output's front, with both stream ids in wire order, and gives its length, for
 * which 1,044 bytes are always enough. Refused with 11, 10, or 7 where the output is shorter than this acknowledgement. */
struct digitmeadow_counted digitmeadow_acknowledge(
    const struct digitmeadow_receiver *r, struct digitmeadow_stream_id send_stream_id, struct digitmeadow_stream_id recv_stream_id,
    digitmeadow_u8 *output, digitmeadow_size output_length);

/* Says why a piece is not delivered: where a number stands in a receiver, which stays as it is. Refused with 11 or 10. */
struct digitmeadow_stand digitmeadow_why(const struct digitmeadow_receiver *r, struct digitmeadow_seq_no number);

/* Starts a reader of a serial line over a buffer of any length, whatever is in it. A packet that is longer than the buffer is refused. */
struct digitmeadow_line digitmeadow_line_start(const digitmeadow_u8 *buffer, digitmeadow_size buffer_length);

/* Feeds a reader a portion of any length, none too. It stops at the first full packet, which then stands at the buffer's front until the next call. Refused with 11;
 * with 10 where the buffer has another length than at the start; or with 30 where a length on the line is under 22 or above the buffer: then, and at every call until
 * the reader is started again. A refused call uses nothing and leaves the buffer; only with 30 is the reader that comes back another, and stopped. */
struct digitmeadow_heard digitmeadow_line_feed(
    struct digitmeadow_line r, const digitmeadow_u8 *portion, digitmeadow_size portion_length, digitmeadow_u8 *buffer, digitmeadow_size buffer_length);

#endif
