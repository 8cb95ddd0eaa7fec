static int position;
int main(void) {
    for (position = 0; position < 10; position++) {
        ;
    }
    return position;
}
