static int table[20];
int main(void) {
    int i = 0;
    while (i < 20 && table[i] != 7) {
        i++;
    }
    return i;
}
