/* Which of the two bytes is the high one isn't said by C, so p10 refuses to guess. */
#include <stdio.h>

int main(void)
{
    return getchar() * 256 + getchar();
}
