int f(int x) {
  for (int i = 0; i < 60; i++)
    x = x * x;
  return x;
}
