/* Each call of the header, once, and a login without a hash, for valgrind, which counts their instructions:
 * test_work.sh. Two calls choose their own parameters.
 * usage: test_work P */
#include "arguments.h"

#include <valgrind/callgrind.h>

/* Of the password pw with (8, 8, 1) and (8, 8, 4), by hashlib.scrypt. */
#define PHC_OF_1 "$scrypt$ln=8,r=8,p=1$c2FsdA$TDZ/Jxw4n9NhM0n+/7le/7zAlgb2xfdZUjQRLb1nXA4"
#define PHC_OF_4 "$scrypt$ln=8,r=8,p=4$c2FsdA$IPeK901wvD/9azggbFpvYfN5e+jrsVHBpP0evtnobRM"

int main(int count, char **words) {
  const uint32_t p = count > 1 ? (uint32_t)atoi(words[1]) : 1;
  const char *phc = p == 1 ? PHC_OF_1 : PHC_OF_4;
  const scrypt_login login = {"pw", 2, phc, strlen(phc)};
  take_arguments("pw", 2, "salt", 4, 8, 8, p, 32, 1);
  take_text(phc, &login, 1);
  take_hasher();
#define CALL(name, arguments)                                                                        \
  if (strcmp(#name, "scrypt_hash_password") != 0 && strcmp(#name, "scrypt_calibrate") != 0) {        \
    CALLGRIND_ZERO_STATS;                                                                            \
    (void)!name arguments;                                                                           \
    CALLGRIND_DUMP_STATS_AT(#name);                                                                  \
  }
#include "each_call.h"
  CALLGRIND_ZERO_STATS;
  (void)!scrypt_hasher_verify(given.hasher, "pw", 2, NULL, 0, NULL, -1);
  CALLGRIND_DUMP_STATS_AT("scrypt_hasher_verify_without_hash");
  free_arguments();
  return 0;
}
