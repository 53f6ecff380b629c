/* A reading of 16 bits, smoothed over the last four. */
typedef unsigned short reading;
struct window { reading last[4]; unsigned int sum; };
volatile reading sensor;
volatile unsigned char slot;
struct window now;
struct window before;
reading level;
signed char trend;
void main(void) {
  while (1) {
    before = now;
    now.last[slot & 3] = sensor;
    now.sum = now.last[0] + now.last[1] + now.last[2] + now.last[3];
    level = now.sum / 4;
    trend = (level >> 9) - 64;
    __ASTREE_wait_for_clock(());
  }
}
