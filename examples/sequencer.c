int phase;
int previous;
int frame;
void main(void) {
  while (1) {
    previous = phase;
    phase = 1 - phase;
    frame = previous + phase;
    __ASTREE_wait_for_clock(());
  }
}
