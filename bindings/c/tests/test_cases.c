/* The verifications of bindings/cases.tsv, and the numbers of their errors, which the packages read too.
 * usage: test_cases FILE */
#include "numbers.h"
#include "scrypt_c.h"
#include "test.h"

#include <string.h>

/* The packages know a status without the prefix. */
static const char *without_prefix(const char *name) {
  return name + strlen(strncmp(name, "SCRYPT_E_", 9) == 0 ? "SCRYPT_E_" : "SCRYPT_");
}

static void explains(int status, const char *text, size_t len, const char *numbers) {
  char made[SCRYPT_EXPLANATION_CAPACITY];
  scrypt_cost cost = {0};
  check(scrypt_hash_cost(text, len, DEFAULT_LIMITS, &cost) == status, text);
  scrypt_explain(status, &cost, DEFAULT_LIMITS, made, sizeof made);
  check(strcmp(made, numbers) == 0, made);
}

TEST(cases) {
  char line[4096];
  int count = 0;
  FILE *file = argument != NULL ? fopen(argument, "rb") : NULL;
  while (file != NULL && fgets(line, sizeof line, file) != NULL) {
    char *password = strchr(line, '\t'), *text, *zero, *numbers;
    const char *name;
    size_t len;
    int status;
    if (line[0] == '#' || password == NULL) continue;
    *password++ = 0;
    text = strchr(password, '\t');
    *text++ = 0;
    text[strcspn(text, "\n")] = 0;
    numbers = strchr(text, '\t');
    if (numbers != NULL) *numbers++ = 0;
    len = strlen(text);
    zero = strstr(text, "\\0");
    if (zero != NULL) *zero = 0, len--;
    status = scrypt_verify_limited(password, strlen(password), text, len, DEFAULT_LIMITS);
    name = scrypt_status_name(status);
    check(name != NULL && strcmp(without_prefix(name), line) == 0, text);
    if (numbers != NULL) explains(status, text, len, numbers);
    count++;
  }
  check(count > 0, "there are cases");
}
