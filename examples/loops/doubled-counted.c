int main(void) {
    int found = 0;
    unsigned mask = 1;
    for (int bit = 0; bit < 8; bit++) {
        found = found % 100 + (mask != 0);
        mask *= 2;
    }
    return found;
}
