#ifdef TABLE
int table[TABLE];
#else
#error TABLE isn't defined
#endif
int main(void) {
  return 0;
}
