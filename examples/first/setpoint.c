/* The demand of one channel. */
int main(void) {
    int setpoint = 1200;   // counts
    int trim = 35;
    int demand = setpoint + trim + 5;
    demand = demand + trim;
    return 0;
}
