struct task { int due; struct task *next; };
static struct task tasks[3] = {{5, &tasks[1]}, {2, &tasks[2]}, {9, 0}};
int main(void) {
    int found = 0;
    for (struct task *t = &tasks[0]; t != 0; t = t->next) {
        found = (found + t->due) % 1000;
    }
    return found;
}
