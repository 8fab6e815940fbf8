/* The sum of the numbers below n. */
int f(int n) {
    int i = 0;
    int s = 0;
    while (i < n) {
        s = s + i;
        i = i + 1;
    }
    return s;
}
