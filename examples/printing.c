// Decimal numbers, as many as the first argument says.
void print_one(long long v) {
  char digits[20];
  int count = 0;
  if (v < 0) put_byte('-');
  do {
    int digit = (int)(v % 10);
    if (digit < 0) digit = -digit;
    digits[count++] = 48 + digit;
    v /= 10;
  } while (v != 0);
  while (count > 0) put_byte(digits[--count]);
}

void print_all(int count, ...) {
  va_list values;
  int i;
  va_start(values, count);
  for (i = 0; i < count; i++) {
    print_one(va_arg(values, long long));
    put_byte(i + 1 < count ? ' ' : '\n');
  }
  va_end(values);
}
