int f(int x) {
  int i = 0;
  while (i < 60) {
    x = x * x;
    i = i + 1;
  }
  return x;
}
