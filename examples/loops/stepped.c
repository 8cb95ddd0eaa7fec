static unsigned limit = 100;
int main(void) {
    int turns = 0;
    for (unsigned i = 0; i < limit; i += 4) {
        turns = turns % 100 + 1;
    }
    return turns;
}
