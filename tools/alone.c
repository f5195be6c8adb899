/* What tools/instructions.c needs of a C library, for x86-64 under an emulator, where none is at hand. */
#include <stddef.h>
#include <stdint.h>

int main(int argc, char **argv);

/* Eight to sixteen bytes, which is what the crate copies, go as two words that overlap. */
void *memcpy(void *to, const void *from, size_t n)
{
    if (n - 8 <= 8) {
        const uint64_t first = *(const uint64_t *)from, last = *(const uint64_t *)((const char *)from + n - 8);
        *(uint64_t *)to = first;
        *(uint64_t *)((char *)to + n - 8) = last;
        return to;
    }
    for (size_t k = 0; k < n; k++) ((volatile char *)to)[k] = ((const char *)from)[k];
    return to;
}

void *memset(void *to, int byte, size_t n)
{
    for (size_t k = 0; k < n; k++) ((volatile char *)to)[k] = (char)byte;
    return to;
}

/* What follows is not counted: it stands in a part of its own. */
#pragma clang section text = "own"

int strcmp(const char *a, const char *b)
{
    while (*a && *a == *b) a++, b++;
    return *a - *b;
}

static long ask(long number, long first, long second, long third)
{
    long answer;
    __asm__ volatile("syscall" : "=a"(answer) : "a"(number), "D"(first), "S"(second), "d"(third) : "rcx", "r11", "memory");
    return answer;
}

/* writes eight hexadecimal digits and a line end to standard output */
void say(uint32_t sum)
{
    char digits[9];
    for (int k = 0; k < 8; k++) digits[k] = "0123456789abcdef"[sum >> (28 - 4 * k) & 15];
    digits[8] = '\n';
    ask(1, 1, (long)digits, sizeof digits);
}

/* the words of the call stand where the stack begins: how many, and then each */
__attribute__((used)) static void begin(long *stack) { ask(60, main((int)stack[0], (char **)(stack + 1)), 0, 0); }

__asm__(".globl _start\n_start: mov %rsp, %rdi\n and $-16, %rsp\n call begin\n");
