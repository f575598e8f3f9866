/* Includes only the header and uses its macros: compiled with every warning as an error, in C and
 * in C++. */
#include "scrypt_c.h"

int main(void) {
  char phc[SCRYPT_PHC_CAPACITY], mcf[SCRYPT_MCF_CAPACITY(16)];
  uint64_t most = SCRYPT_MAX_OUTPUT_LEN;
  phc[0] = mcf[0] = SCRYPT_VERSION_STRING[0];
  return phc[0] == mcf[0] && most > 0 ? SCRYPT_OK : SCRYPT_MISMATCH;
}
