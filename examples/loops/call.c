static int step(void) {
    return 2;
}

int main(void) {
    int turns = 0;
    for (int i = 0; i < 20; i += step()) {
        turns++;
    }
    return turns;
}
