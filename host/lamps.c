/* The story of the lamps, told by a host in C over the static library: the same packets, and so the same lines, as the proved program
 * crates/lamps. A packet is read, accepted in place and acknowledged, and what is ready is taken into the lamp's image. */
#include "digitmeadow.h"

/* What is called of the C library; the toolchain's compiler comes without its headers. */
int printf(const char *format, ...);
int memcmp(const void *a, const void *b, digitmeadow_size n);

typedef digitmeadow_u8 u8;
typedef digitmeadow_u32 u32;
typedef digitmeadow_size size;

enum { IMAGE = 1000, SLOT = 128, STORE = 512 * SLOT, LAMP_ID = 0x01020304, SENDER_ID = 0x0A0B0C0D };

static struct digitmeadow_receiver lamp;
static u8 store[STORE];
static u8 image[IMAGE], shown[IMAGE];
static size filled;

static void put32(u8 *at, u32 n) {
    at[0] = n >> 24;
    at[1] = n >> 16;
    at[2] = n >> 8;
    at[3] = n;
}

static u32 get32(const u8 *at) {
    return (u32)at[0] << 24 | (u32)at[1] << 16 | (u32)at[2] << 8 | at[3];
}

/* A packet as its sender writes it: no NACK, no flag and no option. */
static size packet(u8 *out, u32 number, const u8 *payload, size length) {
    for (size i = 0; i < 22; i++) out[i] = 0;
    put32(out, LAMP_ID);
    put32(out + 4, SENDER_ID);
    put32(out + 8, number);
    for (size i = 0; i < length; i++) out[22 + i] = payload[i];
    return 22 + length;
}

static void numbered(u32 number, size length) {
    printf("%u%s", number, length == 0 ? " (empty)" : "");
}

static const char *why(u32 refusal) {
    return refusal == 13 ? "number below the next to take" : refusal == 15 ? "number already held" : "as the table of refusals says";
}

/* Takes all that is ready, or tells what is waited for. */
static void take_ready(void) {
    u32 number = lamp.next.number;
    struct digitmeadow_counted c = digitmeadow_take(&lamp, store, STORE, shown + filled, IMAGE - filled);
    if (c.refusal != 0) {
        printf(c.refusal == 17 ? ": held, waiting for %u\n" : ": %u is not taken, the image is full\n", number);
        return;
    }
    for (const char *word = ": taken "; c.refusal == 0; word = ", ") {
        printf("%s", word);
        numbered(number, c.count);
        filled += c.count;
        number = lamp.next.number;
        c = digitmeadow_take(&lamp, store, STORE, shown + filled, IMAGE - filled);
    }
    printf("\n");
}

/* The acknowledgement, written and read back; it is told where it names missing numbers. */
static void acknowledge(void) {
    u8 out[1044];
    struct digitmeadow_counted c = digitmeadow_acknowledge(&lamp, (struct digitmeadow_stream_id){SENDER_ID}, (struct digitmeadow_stream_id){LAMP_ID}, out, sizeof out);
    struct digitmeadow_fields ack = digitmeadow_read(out, c.count);
    if (c.refusal != 0 || ack.refusal != 0) {
        printf("  acknowledged: refused %u %u\n", c.refusal, ack.refusal);
        return;
    }
    if (ack.nacks.len == 0) return;
    printf("  acknowledged: ack-through %u, NACKs", ack.ack_through.number);
    for (size i = 0; i < ack.nacks.len; i += 4) printf(" %u", get32(out + ack.nacks.at + i));
    printf("\n");
}

/* Where a number stands, as support reads it. */
static void explain(u32 number) {
    static const char *const words[] = {
        [DIGITMEADOW_LAST_NUMBER] = "It is the last number, which no packet can use",
        [DIGITMEADOW_BELOW_START] = "It is at or below the start",
        [DIGITMEADOW_TAKEN] = "It is: it was taken",
        [DIGITMEADOW_READY] = "It is ready: it has only to be taken",
        [DIGITMEADOW_MISSING] = "It is missing, and a later one came",
        [DIGITMEADOW_NOT_YET_SEEN] = "It is not yet seen",
        [DIGITMEADOW_BEYOND_SPAN] = "It is beyond the span",
    };
    struct digitmeadow_stand s = digitmeadow_why(&lamp, (struct digitmeadow_seq_no){number});
    printf("  why is %u not delivered? ", number);
    if (s.refusal != 0) printf("Refused %u.\n", s.refusal);
    else if (s.reason == DIGITMEADOW_BEHIND_GAP) printf("It is held behind a gap: the smallest missing number is %u.\n", s.smallest.number);
    else printf("%s.\n", words[s.reason]);
}

/* A packet's bytes arrive, in the way that the words say. */
static void receive(const u8 *bytes, size length, const char *how) {
    struct digitmeadow_fields p = digitmeadow_read(bytes, length);
    if (p.refusal != 0) {
        printf("bytes arrive: refused %u\n", p.refusal);
        return;
    }
    printf("packet ");
    numbered(p.seq_nro.number, p.payload.len);
    printf("%s", how);
    u32 refusal = digitmeadow_accept(&lamp, p.seq_nro, bytes + p.payload.at, p.payload.len, store, STORE);
    if (refusal != 0) {
        printf(": refused %u, %s\n", refusal, why(refusal));
        return;
    }
    take_ready();
    acknowledge();
}

/* Packet 1 has the image's first 128 bytes, packet 2 none, each one after it the next 128, and the last the 104 that are left. */
static void arrives(u32 number) {
    u8 bytes[22 + SLOT];
    size at = number < 3 ? 0 : (number - 2) * SLOT;
    size left = IMAGE - at;
    size length = number == 2 ? 0 : left < SLOT ? left : SLOT;
    receive(bytes, packet(bytes, number, image + at, length), " arrives");
}

/* A packet that has the number of an earlier one, and other bytes. */
static void again(u32 number) {
    u8 bytes[22 + SLOT], other[SLOT];
    for (size i = 0; i < SLOT; i++) other[i] = number;
    receive(bytes, packet(bytes, number, other, SLOT), " again, with other bytes");
}

int main(void) {
    for (size i = 0; i < IMAGE; i++) image[i] = i * 31 % 251;
    printf("An image of 1000 bytes goes to a lamp as packets 1 to 9; packet 2 is empty, as a keep-alive is.\n");
    u32 refusal = digitmeadow_start(&lamp, (struct digitmeadow_seq_no){0}, SLOT, store, STORE);
    if (refusal != 0) {
        printf("start: refused %u\n", refusal);
        return 1;
    }
    arrives(2);
    arrives(3);
    explain(3);
    static const u32 order[] = {1, 4, 6};
    for (size i = 0; i < sizeof order / sizeof order[0]; i++) arrives(order[i]);
    again(3);
    arrives(9);
    again(6);
    arrives(7);
    arrives(5);
    arrives(8);
    int same = filled == IMAGE && memcmp(image, shown, IMAGE) == 0;
    printf("The lamp's image: %zu bytes, %s.\n", filled, same ? "the same as the original, byte for byte" : "and another than the original");
    return !same;
}
