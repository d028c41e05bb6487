// Our side of the speed table: `ours OPERATION FILE TABLE` runs an operation on each input of the file and prints a sum of the answers, as
// compare/speed.rs does with the original. The functions are those of the crate that compare/speed makes.
// With a fourth word it prints how deep the operation went into the stack instead: it runs on a stack of its own that was painted before.
#include <fcntl.h>
#include <stdint.h>
#include <stdio.h>
#include <string.h>
#include <ucontext.h>
#include <unistd.h>
extern uint16_t measured_crc16(const uint8_t *, size_t);
extern void measured_scramble(const uint8_t *, size_t, uint8_t *, size_t);
extern void measured_descramble(const uint8_t *, size_t, uint8_t *, size_t);
extern void measured_repair(uint8_t *, size_t);
extern void measured_encode(const uint8_t *, size_t, const uint8_t *, size_t, uint8_t *, size_t);
extern uint64_t measured_decode(const uint8_t *, size_t, const uint8_t *, size_t);
extern uint64_t measured_soft(const uint8_t *, size_t, const uint8_t *, size_t, const uint8_t *, size_t);
extern uint64_t measured_pushes(const uint8_t *, size_t, uint8_t *, size_t);
extern uint64_t measured_feeds(const uint8_t *, size_t, uint8_t *, size_t);
static uint8_t input[1 << 22], table[188], room[1296], out[64];
static size_t taken(const char *name, uint8_t *to, size_t most) {
    int fd = open(name, O_RDONLY);
    size_t n = 0;
    ssize_t got;
    while (fd >= 0 && n < most && (got = read(fd, to + n, most - n)) > 0) n += got;
    return n;
}
static const char *op;
static size_t n;
static uint64_t total;
static void operate(void) {
    size_t size;
    if (!strncmp(op, "push", 4)) total = measured_pushes(input, n, room, sizeof room);
    else if (!strncmp(op, "feed", 4)) total = measured_feeds(input, n, room, sizeof room);
    else if (!strcmp(op, "crc16")) for (size = 6; n >= size; n -= size) total += measured_crc16(input + n - size, size);
    else if (!strcmp(op, "scramble")) for (size = 42; n >= size; n -= size) { measured_scramble(input + n - size, size, out, 48); total += out[2]; }
    else if (!strcmp(op, "descramble")) for (size = 48; n >= size; n -= size) { measured_descramble(input + n - size, size, out, 42); total += out[0]; }
    else if (!strcmp(op, "repair")) for (size = 14; n >= size; n -= size) { measured_repair(input + n - size, size); total += input[n - size]; }
    else if (!strcmp(op, "encode")) for (size = 20; n >= size; n -= size) { measured_encode(table, 188, input + n - size, size, out, 48); total += out[2]; }
    else if (!strncmp(op, "soft", 4)) for (size = 432; n >= size; n -= size) total += measured_soft(table, 188, input + n - size, 48, input + n - 384, 384);
    else for (size = 48; n >= size; n -= size) total += measured_decode(table, 188, input + n - size, size);
}
static uint8_t painted[1 << 18] __attribute__((aligned(64)));
static ucontext_t back, there;
static size_t depth(void) {
    size_t clean = 0;
    memset(painted, 0xa5, sizeof painted);
    getcontext(&there);
    there.uc_stack.ss_sp = painted;
    there.uc_stack.ss_size = sizeof painted;
    there.uc_link = &back;
    makecontext(&there, operate, 0);
    swapcontext(&back, &there);
    while (clean < sizeof painted && painted[clean] == 0xa5) clean++;
    return sizeof painted - clean;
}
int main(int argc, char **argv) {
    op = argv[1];
    n = taken(argv[2], input, sizeof input);
    taken(argv[3], table, sizeof table);
    if (argc > 4) {
        printf("%zu\n", depth());
        return 0;
    }
    operate();
    printf("%llu\n", (unsigned long long)total);
    return 0;
}
