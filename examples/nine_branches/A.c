int f(int a) {
    int r = 0;
    if (a > 0) r++;
    if (a > 0) r++;
    if (a > 0) r++;
    if (a > 0) r++;
    if (a > 0) r++;
    if (a > 0) r++;
    if (a > 0) r++;
    if (a > 0) r++;
    if (a > 0) r++;
    return r;
}
