int main(void) {
    /* The demand of one channel.
    return 0;
}
