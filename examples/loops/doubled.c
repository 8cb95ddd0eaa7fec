int main(void) {
    int found = 0;
    for (unsigned mask = 1; mask < 256; mask *= 2) {
        found = found % 100 + 1;
    }
    return found;
}
