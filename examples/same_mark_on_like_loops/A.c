extern int __mark(int);

int f(int n) {
    int i = 0;
    int s = 0;
    while (__mark(1) & (i < n)) i++;
    for (int j = 0; __mark(7) & (j < n); j++) s += j;
    return s;
}
