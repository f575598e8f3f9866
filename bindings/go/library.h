/* The library's header. */
#if !__has_include(<scrypt_c.h>)
#error "scrypt_c.h is not in the package's folder: make lib puts it there, with the library; or make install and -tags scrypt_system. README.md names the systems."
#else
#include <scrypt_c.h>
#endif
