int main(void) {
    int left = 50;
    int turns = 0;
    while (left > 0) {
        left -= 3;
        turns = turns % 100 + 1;
    }
    return turns;
}
