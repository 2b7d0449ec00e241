// Whether a year is a leap year: 1 or 0.
//
// The program reads no memory, so the year stands in it. The empty assembly says that the register may have changed, so that the
// compiler keeps the branches.
unsigned leap(void)
{
    unsigned year = 2028;
    __asm__("" : "+r"(year));
    if (year % 4 != 0)
        return 0;
    if (year % 100 != 0)
        return 1;
    return year % 400 == 0;
}
