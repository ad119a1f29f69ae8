// Puts out the sum of the squares of 1 to 10.

// A thread asks by ecall, with the number of the call in a7.
static unsigned call(unsigned number, unsigned argument)
{
    register unsigned a0 __asm__("a0") = argument;
    register unsigned a7 __asm__("a7") = number;
    __asm__ volatile("ecall" : "+r"(a0) : "r"(a7) : "memory");
    return a0;
}

static unsigned squares[10];

void _start(void)
{
    unsigned sum = 0;
    for (unsigned i = 0; i < 10; i++)
        squares[i] = (i + 1) * (i + 1);
    for (unsigned i = 0; i < 10; i++)
        sum += squares[i];
    call(2, sum); // to the output, in decimal
    call(0, 0);   // the end, with 0 as the code
}
