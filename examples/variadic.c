// The last fixed argument of a call is the number of the extra ones, as a literal.
int sum(int total, int count, ...) {
  va_list extras;
  int i;
  va_start(extras, count);
  for (i = 0; i < count; i++) total += va_arg(extras, int);
  va_end(extras);
  return total;
}

int main(void) {
  put_byte(sum(44, 6, 1, 2, 3, 4, 5, 6));
  put_byte(sum(66, 0));
  return 0;
}
