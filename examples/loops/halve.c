static int bits(unsigned n) {
    int found = 0;
    while (n > 0) {
        n /= 2;
        found = found % 100 + 1;
    }
    return found;
}
int main(void) {
    return bits(200);
}
