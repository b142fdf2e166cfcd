int main(void) {
  return 0;
}
/* the end of this text
