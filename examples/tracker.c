volatile int measured;
int estimate;
int residual;
int before;
void main(void) {
  while (1) {
    before = estimate;
    estimate = measured;
    residual = estimate - before;
    __ASTREE_wait_for_clock(());
  }
}
