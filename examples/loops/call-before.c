static int step(void) {
    return 2;
}

int main(void) {
    int turns = 0;
    int width = step();
    for (int i = 0; i < 20; i += width) {
        turns++;
    }
    return turns;
}
