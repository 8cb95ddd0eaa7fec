/* Shares of a hundred. A divisor that may be 0 isn't clean, but where the certificate claims that it is never 0. */
static int share(int parts) {
    return 100 / parts;
}

int main(void) {
    return share(5);
}
