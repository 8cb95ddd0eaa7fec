static int position;
int main(void) {
    for (int at = 0; at < 10; at++) {
        position = at;
    }
    return position;
}
