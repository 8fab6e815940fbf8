/* The same, counted from 1. */
int f(int n) {
    int i = 1;
    int s = 0;
    while (i <= n) {
        s = s + (i - 1);
        i = i + 1;
    }
    return s;
}
