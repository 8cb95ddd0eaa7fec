/* A pointer that is kept as a number. */
static int setpoint = 1200;

int main(void)
{
    long address = (long)&setpoint;
    return address != 0;
}
