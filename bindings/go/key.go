package scrypt

// #include "library.h"
import "C"

import (
	"context"
	"fmt"
	"math/bits"
)

// Key derives a key of keyLen bytes from a password and a salt. N must be a power of two above 1, as
// in x/crypto; only a hash may have an N of 1. Limit keyLen if it comes from a file: the process ends
// if it has no memory for the key. Params.Memory and Params.Work return the cost of N, r and p. The
// errors match (errors.Is) ErrInvalidParams, ErrInvalidOutputLen, and ErrOutOfMemory if the memory for
// the table is not available.
func Key(password, salt []byte, N, r, p, keyLen int) ([]byte, error) {
	return made(N, r, p, keyLen, func(cost C.scrypt_cost, key []byte) error {
		return failed(C.scrypt_key(pointer(password), size(password), pointer(salt), size(salt),
			cost.log_n, cost.r, cost.p, bytes(key), size(key)))
	})
}

// KeyContext is like Key, but derives the key in steps of about 10 ms. Before the first step and
// between two steps it returns the context's error if the context is done. After each step it calls
// progress, if that is not nil, with the fraction that is done, from 0 to 1. PBKDF2 at the beginning
// and at the end, of 128 * r * p bytes, is one step each.
func KeyContext(ctx context.Context, password, salt []byte, N, r, p, keyLen int,
	progress func(done float64)) ([]byte, error) {
	if err := ctx.Err(); err != nil {
		return nil, err
	}
	return made(N, r, p, keyLen, func(cost C.scrypt_cost, key []byte) error {
		var derivation *C.scrypt_derivation
		status := C.scrypt_derivation_new(pointer(password), size(password), pointer(salt), size(salt),
			cost.log_n, cost.r, cost.p, C.SCRYPT_AUTO, size(key), &derivation)
		defer C.scrypt_derivation_free(&derivation)
		for done := C.double(0); status == C.SCRYPT_OK && done < 1; {
			if err := ctx.Err(); err != nil {
				return err
			}
			status = C.scrypt_derivation_run(derivation, C.SCRYPT_STEP_MS, &done)
			if progress != nil && status == C.SCRYPT_OK {
				progress(float64(done))
			}
		}
		if status == C.SCRYPT_OK {
			status = C.scrypt_derivation_finish(derivation, bytes(key), size(key))
		}
		return failed(status)
	})
}

// made returns the key that derive writes, if N, r, p and keyLen are accepted.
func made(N, r, p, keyLen int, derive func(C.scrypt_cost, []byte) error) ([]byte, error) {
	params := Params{LogN: bits.TrailingZeros(uint(N)), R: r, P: p}
	cost, err := params.costs()
	switch {
	case N < 2 || N&(N-1) != 0:
		return nil, fmt.Errorf("scrypt: N must be a power of two above 1: %d (%w)", N, ErrInvalidParams)
	case err != nil:
		return nil, fmt.Errorf("%w: N is %d, r is %d and p is %d", err, N, r, p)
	}
	key, err := newKey(keyLen)
	if err == nil {
		err = derive(cost, key)
	}
	if _, is := err.(Error); is {
		const words = "%w: N %d, r %d and p %d need %d bytes, and keyLen is %d"
		return nil, fmt.Errorf(words, err, N, r, p, cost.bytes, keyLen)
	} else if err != nil {
		return nil, err
	}
	return key, nil
}

// newKey returns n bytes, or ErrInvalidOutputLen. As elsewhere in Go, the process ends if it runs
// out of memory.
func newKey(n int) ([]byte, error) {
	if n < 1 || n > C.SCRYPT_MAX_OUTPUT_LEN {
		return nil, ErrInvalidOutputLen
	}
	return make([]byte, n), nil
}
