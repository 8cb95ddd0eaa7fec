static const unsigned char frame[8] = {1, 2, 3};
int main(void) {
    int sum = 0;
    for (const unsigned char *at = frame; at < frame + 8; at++) {
        sum = (sum + *at) % 256;
    }
    return sum;
}
