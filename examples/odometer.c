int ticks;
int last;
int since;
void main(void) {
  while (1) {
    last = ticks;
    ticks = ticks + 1;
    since = ticks - last;
    __ASTREE_wait_for_clock(());
  }
}
