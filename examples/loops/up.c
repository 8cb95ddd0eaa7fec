static int table[20];
int main(void) {
    int sum = 0;
    for (int i = 0; i < 20; i++) {
        sum = (sum + table[i]) % 1000;
    }
    return sum;
}
