/* A table look-up with an index that isn't checked, and a count that nothing bounds. */
volatile unsigned char request;
const int gain[8] = { 10, 20, 40, 80, 160, 320, 640, 1280 };
int output;
int quotient;
unsigned int served;
void main(void) {
  for (;;) {
    output = gain[request] * (request & 15);
    quotient = output / (request - 100);
    served++;
    __ASTREE_wait_for_clock(());
  }
}
