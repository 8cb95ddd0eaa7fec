#define GAIN OFFSET + 1
#define OFFSET GAIN

int main(void) {
    int demand = GAIN;
    return 0;
}
