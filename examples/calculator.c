// Each line of the input is calculated from the left; its number and its value are printed.
typedef long long (*operator)(long long, long long);

struct entry {
  char mark;
  operator run;
};
extern struct entry entries[4];

void print_all(int count, ...);

struct state {
  long long value;
  long long number;
  operator pending;
};

long long second(long long a, long long b) { return b; }

struct state turn(struct state s, int c) {
  int i;
  if (c >= '0' && c <= '9') {
    s.number = s.number * 10 + (c - '0');
    return s;
  }
  if (c == ' ') return s;
  s.value = s.pending(s.value, s.number);
  s.number = 0;
  s.pending = second;
  for (i = 0; i < 4; i++)
    if (entries[i].mark == c) s.pending = entries[i].run;
  return s;
}

int main(void) {
  struct state s;
  int c;
  int lines = 0;
  s.pending = second;
  while ((c = get_byte()) != -1) {
    s = turn(s, c);
    if (c == '\n') {
      lines++;
      print_all(2, lines, s.value);
    }
  }
  return lines;
}
