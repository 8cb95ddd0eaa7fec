int main(void) {
    unsigned left = 9;
    int turns = 0;
    while (left != 0) {
        left--;
        turns = turns % 100 + 1;
    }
    return turns;
}
