/* Two indices that go towards each other: a text is turned round in place. */
#include <assert.h>

int main(void)
{
    char text[10] = "stressed ";
    int i = 0;
    int j = 7;
    while (i < j) {
        char kept = text[i];
        text[i] = text[j];
        text[j] = kept;
        i++;
        j--;
    }
    assert(text[0] == 'd');
    assert(text[7] == 's');
    return i;
}
