int f(int x) {
  while (x)
    ;
  return 0;
}
