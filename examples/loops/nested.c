static int grid[4][6];
int main(void) {
    int sum = 0;
    for (int row = 0; row < 4; row++) {
        for (int column = 0; column < 6; column++) {
            sum = (sum + grid[row][column]) % 1000;
        }
    }
    return sum;
}
