/* A bare Cortex-M4 (QEMU's mps2-an386): start, text by semihosting, how deep the stack went, and the functions that
 * compiled code asks its libraries for. */
#include <stddef.h>
#include <stdint.h>

extern uint32_t stack_low[], stack_top[];
extern uint8_t bss_low[], bss_top[];
int main(void);
void start(void);

__attribute__((section(".vectors"), used)) static const void *const vectors[] = {stack_top, (const void *)start};

static int semihost(int operation, const void *argument)
{
    register int r0 __asm__("r0") = operation;
    register const void *r1 __asm__("r1") = argument;

    __asm__ volatile("bkpt 0xab" : "+r"(r0) : "r"(r1) : "memory");
    return r0;
}

void print(const char *text) { semihost(4, text); }

static void print_decimal(uint32_t number)
{
    char text[12] = {0};
    int at = 11;

    do
        text[--at] = (char)('0' + number % 10);
    while (number /= 10);
    print(text + at);
}

/* Paints the stack, runs main, and tells how much of the paint is gone. */
void start(void)
{
    volatile uint32_t *word;
    volatile uint8_t *byte;

    for (byte = bss_low; byte < bss_top; byte++)
        *byte = 0;
    for (word = stack_low; word < stack_top - 64; word++)
        *word = 0x5aa5c33cu;
    main();
    for (word = stack_low; *word == 0x5aa5c33cu; word++)
        ;
    print("stack ");
    print_decimal((uint32_t)((char *)stack_top - (char *)word));
    print("\n");
    semihost(0x18, (const void *)0x20026);
    for (;;)
        ;
}

void __aeabi_memmove(uint8_t *to, const uint8_t *from, size_t size)
{
    /* volatile, or the compiler makes a call of this very function of the loop */
    volatile uint8_t *end = to;
    size_t i;

    if (to < from)
        for (i = 0; i < size; i++)
            end[i] = from[i];
    else
        for (i = size; i > 0; i--)
            end[i - 1] = from[i - 1];
}

void __aeabi_memset(uint8_t *to, size_t size, int value)
{
    volatile uint8_t *end = to;
    size_t i;

    for (i = 0; i < size; i++)
        end[i] = (uint8_t)value;
}

void __aeabi_memset4(uint8_t *to, size_t size, int value) __attribute__((alias("__aeabi_memset")));
void __aeabi_memset8(uint8_t *to, size_t size, int value) __attribute__((alias("__aeabi_memset")));
void __aeabi_memclr(uint8_t *to, size_t size) { __aeabi_memset(to, size, 0); }
void __aeabi_memclr4(uint8_t *to, size_t size) __attribute__((alias("__aeabi_memclr")));
void __aeabi_memclr8(uint8_t *to, size_t size) __attribute__((alias("__aeabi_memclr")));
void __aeabi_memcpy(uint8_t *to, const uint8_t *from, size_t size) __attribute__((alias("__aeabi_memmove")));
void __aeabi_memcpy4(uint8_t *to, const uint8_t *from, size_t size) __attribute__((alias("__aeabi_memmove")));
void __aeabi_memcpy8(uint8_t *to, const uint8_t *from, size_t size) __attribute__((alias("__aeabi_memmove")));

/* The quotient; the remainder goes to a place. */
__attribute__((used)) uint64_t divide(uint64_t number, uint64_t by, uint64_t *remainder)
{
    uint64_t quotient = 0, rest = 0;
    int bit;

    for (bit = 63; bit >= 0; bit--) {
        rest = rest << 1 | (number >> bit & 1);
        if (rest >= by) {
            rest -= by;
            quotient |= (uint64_t)1 << bit;
        }
    }
    *remainder = rest;
    return quotient;
}

/* By the rules of the ARM ABI the quotient goes back in r0 and r1, the remainder in r2 and r3. */
__attribute__((naked)) void __aeabi_uldivmod(void)
{
    __asm__("push {r4, lr}\n sub sp, #16\n add r4, sp, #8\n str r4, [sp]\n bl divide\n"
            "ldr r2, [sp, #8]\n ldr r3, [sp, #12]\n add sp, #16\n pop {r4, pc}");
}

/* A Cortex-M0 has neither a long product nor a division, and asks for them too. */
uint64_t __aeabi_lmul(uint64_t a, uint64_t b) { return a * b; }
uint64_t __aeabi_uidivmod(uint32_t number, uint32_t by) { return (uint64_t)(number % by) << 32 | number / by; }
