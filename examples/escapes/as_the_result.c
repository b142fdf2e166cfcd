char *name(void) {
  char buffer[8];
  buffer[0] = 'a';
  return buffer;
}

int main(void) {
  return name()[0];
}
