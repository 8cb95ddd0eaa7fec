static int table[64];
static int find(int wanted) {
    int low = 0;
    int high = 64;
    while (low < high) {
        int middle = low + (high - low) / 2;
        if (table[middle] < wanted) {
            low = middle + 1;
        } else {
            high = middle;
        }
    }
    return low;
}
int main(void) {
    return find(3);
}
