static int table[20];
int main(void) {
    int i = 0;
    for (;;) {
        if (i >= 20 || table[i] == 7) {
            break;
        }
        i++;
    }
    return i;
}
