static int down(int left) {
    do {
        left--;
    } while (left > 0);
    return left;
}
int main(void) {
    return down(20);
}
