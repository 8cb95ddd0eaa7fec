static int bits(unsigned n) {
    int found = 0;
    for (int i = 0; i < 32 && n > 0; i++) {
        n /= 2;
        found = found % 100 + 1;
    }
    return found;
}
int main(void) {
    return bits(200);
}
