int f(int n) {
    int i = 0;
    int s = 0;
    for (int j = 0; j < n; j++) s += j;
    return s;
}
