/* Prints the first key of RFC 7914, section 12, and the processor of the installed library. */
#include <scrypt_c.h>
#include <stdio.h>
#include <string.h>

int main(void) {
  uint8_t key[64];
  int status = scrypt_key(NULL, 0, NULL, 0, 4, 1, 1, key, sizeof key);
  for (size_t i = 0; status == SCRYPT_OK && i < sizeof key; i++) printf("%02x", key[i]);
  puts(strrchr(scrypt_version(), ' '));
  return status;
}
