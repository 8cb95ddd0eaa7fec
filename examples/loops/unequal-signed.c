int main(void) {
    int turns = 0;
    for (int i = 9; i != 0; i--) {
        turns = turns % 100 + 1;
    }
    return turns;
}
