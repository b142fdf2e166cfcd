#ifdef WIDE
int main(void) {
  return 0;
}
