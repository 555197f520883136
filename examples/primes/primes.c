/* Counts the primes below 1,000 with the sieve of Eratosthenes, and leaves how many there are, and the last of them, in memory. */
#define NUMBERS 1000

unsigned char crossed_out[NUMBERS];
volatile unsigned long primes, largest;

int main(void) {
  for (unsigned long number = 2; number < NUMBERS; number++) {
    if (crossed_out[number])
      continue;
    primes = primes + 1;
    largest = number;
    for (unsigned long multiple = number * number; multiple < NUMBERS; multiple += number)
      crossed_out[multiple] = 1;
  }
  return 0;
}
