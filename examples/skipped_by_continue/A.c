extern int __mark(int);

int f(int n) {
    int s = 0;
    for (int i = 0; __mark(7) & (i < n); i++) {
        if (i == 3) continue;
        s += i;
    }
    return s;
}
