int main(void) {
  return '\x100';
}
