static int table[64];
static int find(int wanted) {
    int low = 0;
    int high = 64;
    for (int turn = 0; turn < 7 && low < high; turn++) {
        int middle = (low + high) / 2;
        if (table[middle] < wanted) {
            low = middle + 1;
        } else {
            high = middle;
        }
    }
    return low;
}
int main(void) {
    return find(3);
}
