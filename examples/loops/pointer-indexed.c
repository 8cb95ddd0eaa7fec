static const unsigned char frame[8] = {1, 2, 3};
int main(void) {
    int sum = 0;
    for (int i = 0; i < 8; i++) {
        sum = (sum + frame[i]) % 256;
    }
    return sum;
}
