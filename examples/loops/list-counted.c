struct task { int due; struct task *next; };
static struct task tasks[3] = {{5, &tasks[1]}, {2, &tasks[2]}, {9, 0}};
int main(void) {
    int found = 0;
    struct task *t = &tasks[0];
    for (int i = 0; i < 3 && t != 0; i++) {
        found = (found + t->due) % 1000;
        t = t->next;
    }
    return found;
}
