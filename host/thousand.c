/* A thousand packets through one receiver, changed in place where it lies. `thousand` prints after each call the line that our program `drive` prints of the
 * same call by value (docs/DRIVE.md): the answer, the whole state, and a checksum of every lent byte. `thousand script` writes those calls as a script
 * for `drive`, whose lines are to be the same. */
#include "digitmeadow.h"

int printf(const char *format, ...);
int putchar(int byte);

typedef digitmeadow_u8 u8;
typedef digitmeadow_u32 u32;
typedef digitmeadow_size size;
typedef __UINT64_TYPE__ u64;

enum { SLOT = 16, STORE = 512 * SLOT };

static struct digitmeadow_receiver r;
static u8 store[STORE];
static int scripted;

/* Ten packets for each eight numbers: the eight come last first, with one that is held already among them; the tenth is refused, as
 * stale, as too far or as too long in turn. */
static u32 number_of(u32 turn) {
    u32 block = turn / 10, first = block * 8, k = turn % 10;
    if (k < 4) return first + 8 - k;
    if (k == 4) return first + 8;
    if (k < 9) return first + 9 - k;
    return first + (block % 3 == 0 ? 1 : block % 3 == 1 ? 521 : 9);
}

static u64 checksum(const u8 *bytes, size n) {
    u64 sum = 0;
    for (size i = 0; i < n; i++) sum = (sum * 1000003 + bytes[i] + 1) % 4294967291;
    return sum;
}

static void put(u32 number) {
    for (int shift = 24; shift >= 0; shift -= 8) putchar(number >> shift & 255);
}

static void put_bytes(const u8 *bytes, size n) {
    put(n);
    for (size i = 0; i < n; i++) putchar(bytes[i]);
}

/* A buffer of n bytes, all 0. */
static void put_buffer(size n) {
    put(n);
    putchar(0);
    put(0);
}

static void tell_state(void) {
    u32 held = 0;
    for (u32 i = 0; i < 512; i++) held += r.marks[i] != 0;
    printf(" %u %u %u %u %u", r.slot, r.start.number, r.next.number, r.highest.number, held);
    for (u32 i = 0; i < 512; i++)
        if (r.marks[i] != 0) printf(" %u %u", i, r.marks[i]);
}

static void start(void) {
    u32 refusal = digitmeadow_start(&r, (struct digitmeadow_seq_no){0}, SLOT, store, STORE);
    if (scripted) {
        putchar('S');
        put(0);
        put(SLOT);
        put_buffer(STORE);
        return;
    }
    printf("start %u", refusal);
    tell_state();
    putchar('\n');
}

static void accept(u32 number, const u8 *payload, size length) {
    u32 refusal = digitmeadow_accept(&r, (struct digitmeadow_seq_no){number}, payload, length, store, STORE);
    if (scripted) {
        putchar('a');
        put(number);
        put_bytes(payload, length);
        return;
    }
    printf("accept %u", refusal);
    tell_state();
    printf(" %llu\n", (unsigned long long)checksum(store, STORE));
}

/* Whether there was something to take. */
static int take(void) {
    u8 out[SLOT] = {0};
    struct digitmeadow_counted c = digitmeadow_take(&r, store, STORE, out, sizeof out);
    if (scripted) {
        putchar('t');
        put_buffer(sizeof out);
        return c.refusal == 0;
    }
    printf("take %u %zu", c.refusal, c.count);
    tell_state();
    printf(" %llu\n", (unsigned long long)checksum(out, sizeof out));
    return c.refusal == 0;
}

int main(int count, char **words) {
    scripted = count > 1 && words[1][0] == 's';
    start();
    for (u32 turn = 0; turn < 1000; turn++) {
        u8 payload[SLOT + 1];
        u32 number = number_of(turn);
        for (u32 i = 0; i < sizeof payload; i++) payload[i] = (turn + i * 7) % 251;
        accept(number, payload, turn % 30 == 29 ? SLOT + 1 : number * 7 % 17);
        while (take()) {}
    }
    return 0;
}
