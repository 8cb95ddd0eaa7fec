int main(void) {
    int init_done;
#pragma p10 init_done
    = 7;
    return 0;
}
