static int down(int left) {
    if (left < 1) {
        left = 1;
    }
    do {
        left--;
    } while (left > 0);
    return left;
}
int main(void) {
    return down(20);
}
