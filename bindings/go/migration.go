//go:build cgo

package scrypt

// #include "library.h"
import "C"

import (
	"encoding/hex"
	"fmt"
	"math/bits"
	"regexp"
	"strconv"
	"strings"
)

// StoredText returns a hash that Verify reads, from the salt and the key of another program: a PHC
// string if the lengths allow it, otherwise a $7$ hash. A PHC string keeps only the first 64 bytes
// of the key, which are the key of that length. N must be a power of two and at least 64: a smaller
// number may be the logarithm of N, and then no password would match. The errors match (errors.Is)
// ErrInvalidParams, ErrInvalidOutputLen if there is no key, and ErrSaltInvalid if neither format
// can store the salt.
func StoredText(salt, key []byte, N, r, p int) (string, error) {
	if N >= 1 && N < 64 {
		const words = "%w: N is at least 64, and %d may be its logarithm, LogN: %d is N = 2^%d"
		return "", fmt.Errorf(words, ErrInvalidParams, N, uint64(1)<<N, N)
	}
	return storedText(salt, key, N, r, p)
}

// storedText is like StoredText, but accepts N below 64.
func storedText(salt, key []byte, N, r, p int) (string, error) {
	if N < 1 || N&(N-1) != 0 {
		return "", fmt.Errorf("%w: N must be a power of two: %d", ErrInvalidParams, N)
	}
	text := make([]byte, C.SCRYPT_PHC_CAPACITY+2*(len(salt)+len(key)))
	status := C.scrypt_stored_text(pointer(salt), size(salt), pointer(key), size(key),
		number(bits.TrailingZeros(uint(N))), number(r), number(p), C.SCRYPT_PHC_OR_MCF, chars(text), size(text))
	if err := failed(status); err != nil {
		const words = "%w: N is %d, r is %d and p is %d, the salt has %d bytes and the key has %d"
		return "", fmt.Errorf(words, err, N, r, p, len(salt), len(key))
	}
	return strings.TrimRight(string(text), "\x00"), nil
}

// simpleScrypt matches N, r, p, and in hexadecimal the salt and the key.
var simpleScrypt = regexp.MustCompile(`^(\d+)\$(\d+)\$(\d+)\$((?:[\da-fA-F]{2})*)\$((?:[\da-fA-F]{2})*)$`)

// FromSimpleScrypt converts a hash of github.com/elithrar/simple-scrypt, N$r$p$salt$key with the
// last two in hexadecimal, to a hash that Verify reads. N may be below 64, but is above 1, as there.
// It returns the errors of StoredText, and ErrEncodingInvalid if the text is not such a hash.
func FromSimpleScrypt(stored string) (string, error) {
	invalid := fmt.Errorf("%w: this is not a hash of simple-scrypt", ErrEncodingInvalid)
	parts := simpleScrypt.FindStringSubmatch(stored)
	if parts == nil {
		return "", invalid
	}
	var numbers [3]int
	for i := range numbers {
		number, err := strconv.Atoi(parts[i+1])
		if err != nil {
			return "", invalid
		}
		numbers[i] = number
	}
	if numbers[0] == 1 {
		return "", fmt.Errorf("%w: N must be above 1", ErrInvalidParams)
	}
	salt, _ := hex.DecodeString(parts[4])
	key, _ := hex.DecodeString(parts[5])
	return storedText(salt, key, numbers[0], numbers[1], numbers[2])
}
