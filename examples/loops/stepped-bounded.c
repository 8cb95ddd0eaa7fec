static unsigned limit = 100;
int main(void) {
    int turns = 0;
    unsigned end = limit;
    if (end > 4096) {
        end = 4096;
    }
    for (unsigned i = 0; i < end; i += 4) {
        turns = turns % 100 + 1;
    }
    return turns;
}
