/* A line of packets from standard input, in portions of any size, and each packet's fields: the lines of our program `serial`. */
#include "digitmeadow.h"

int printf(const char *format, ...);
long read(int file, void *bytes, digitmeadow_size n);

typedef digitmeadow_u8 u8;
typedef digitmeadow_size size;

static u8 buffer[2048];

static void tell(size length) {
    struct digitmeadow_fields f = digitmeadow_read(buffer, length);
    printf("packet of %zu: ", length);
    if (f.refusal != 0) {
        printf("refused %u\n", f.refusal);
        return;
    }
    printf("send %u, receive %u, number %u, ack-through %u, ", f.send_stream_id.id, f.recv_stream_id.id, f.seq_nro.number, f.ack_through.number);
    printf("NACKs %zu, resend delay %u, flags %u, ", f.nacks.len / 4, f.resend_delay, f.flags);
    printf("delay %u, maximum size %u, payload %zu\n", f.delay, f.max_size, f.payload.len);
}

/* Offers a portion, and again what is not used of it, until no packet is answered. */
static struct digitmeadow_line offer(struct digitmeadow_line r, const u8 *portion, size n) {
    struct digitmeadow_heard h;
    do {
        h = digitmeadow_line_feed(r, portion, n, buffer, sizeof buffer);
        r = h.reader;
        portion += h.used;
        n -= h.used;
        if (h.length != 0) tell(h.length);
    } while (h.length != 0);
    if (h.refusal != 0) printf("refused %u\n", h.refusal);
    return r;
}

static void tell_end(struct digitmeadow_line r) {
    switch (r.phase) {
    case 0: printf("the line ends behind a packet\n"); break;
    case 1: printf("the line ends inside a length\n"); break;
    case 2: printf("the line ends inside a packet of %zu, of which there are %zu\n", r.size, r.there); break;
    default: printf("the line is not read on\n");
    }
}

int main(void) {
    struct digitmeadow_line r = digitmeadow_line_start(buffer, sizeof buffer);
    u8 portion[5000];
    long n = 1;
    for (size turn = 1; n > 0 && r.phase != 3; turn = turn * 7 % 5000 + 1) {
        n = read(0, portion, turn);
        r = offer(r, portion, n > 0 ? n : 0);
    }
    tell_end(r);
    return 0;
}
