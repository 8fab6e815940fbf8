int f(int a) {
  int x = y = a;
  return x;
}
