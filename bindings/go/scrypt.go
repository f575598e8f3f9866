// Package scrypt derives keys with scrypt (RFC 7914), and makes and verifies scrypt password
// hashes, on top of the library libscrypt_c. The source of the library's calls that derive keys
// and read and verify hashes is proved. Its hasher, which is C, and this package, which calls it
// through cgo, are tested, not proved.
//
//	hasher, err := scrypt.NewHasher(scrypt.Options{})
//	..
//	text, err := hasher.Hash(ctx, password)        // store this
//	..
//	err = hasher.Verify(ctx, text, password)       // nil, or scrypt.ErrMismatch
//
// Key has the same arguments as Key of golang.org/x/crypto/scrypt.
//
// The static library and its header are in the folder of the package, where make lib puts them.
// With the build tag scrypt_system, the installed library that pkg-config finds is linked instead.
package scrypt

// #include "library.h"
import "C"

import (
	"fmt"
	"math"
	"time"
)

// Params are the parameters of a hash: N = 2^LogN, the block size R, the parallelization P, and the
// length of the hash's key, 10 to 64 bytes. They are of type int so that no conversion truncates
// them; a number that is out of range gives ErrInvalidParams.
type Params struct {
	LogN, R, P, KeyLen int
}

// Recommended returns the recommended parameters, which take 128 MiB, with a key of 32 bytes.
func Recommended() Params {
	return Params{
		LogN:   C.SCRYPT_RECOMMENDED_LOG_N,
		R:      C.SCRYPT_RECOMMENDED_R,
		P:      C.SCRYPT_RECOMMENDED_P,
		KeyLen: C.SCRYPT_KEY_LEN,
	}
}

// DefaultLimits returns the default limits on a hash: the maximum of its memory, a little more than a
// table of 256 MiB; the maximum of its work, four times the work of the recommended parameters; and
// the minimum length of its key, 16 bytes.
func DefaultLimits() (maxMem, maxWork uint64, minKeyLen int) {
	var mem, keyLen C.size_t
	var work C.uint64_t
	C.scrypt_default_limits(C.SCRYPT_RECOMMENDED_LOG_N, C.SCRYPT_RECOMMENDED_R, C.SCRYPT_RECOMMENDED_P, C.SCRYPT_KEY_LEN,
		&mem, &work, &keyLen)
	return uint64(mem), uint64(work), int(keyLen)
}

// Calibrate measures this machine, and returns the most costly parameters whose derivation takes no
// more time than the target: first the largest LogN whose table does not exceed maxMem, and then
// the largest P. R is 8, and KeyLen is 32. It takes about four times the target. It returns
// ErrTooCostly if even a LogN of 10 takes more time or memory.
func Calibrate(target time.Duration, maxMem uint64) (Params, error) {
	var logN, r, p C.uint32_t
	err := failed(C.scrypt_calibrate(C.double(target.Seconds()), C.size_t(maxMem), &logN, &r, &p))
	if err != nil {
		return Params{}, err
	}
	return Params{LogN: int(logN), R: int(r), P: int(p), KeyLen: C.SCRYPT_KEY_LEN}, nil
}

// ParamsOf returns the parameters of a hash, with a KeyLen of 0 if it has no key. Its errors match
// ErrInvalidHash (errors.Is).
func ParamsOf(text string) (Params, error) {
	raw := []byte(text)
	var logN, r, p C.uint32_t
	var keyLen C.size_t
	if err := failed(C.scrypt_hash_params(chars(raw), size(raw), &logN, &r, &p, &keyLen)); err != nil {
		return Params{}, err
	}
	return Params{LogN: int(logN), R: int(r), P: int(p), KeyLen: int(keyLen)}, nil
}

// Memory returns the size of a derivation's buffers in bytes, which Options.MaxMem limits. It returns
// math.MaxUint64 if the size is larger, and ErrInvalidParams if LogN, R and P are not accepted.
func (params Params) Memory() (uint64, error) {
	cost, err := params.costs()
	return uint64(cost.bytes), err
}

// costs returns the cost of a derivation, or ErrInvalidParams.
func (params Params) costs() (cost C.scrypt_cost, err error) {
	status := C.scrypt_params_cost(number(params.LogN), number(params.R), number(params.P),
		C.SIZE_MAX, math.MaxUint64, &cost)
	if status == C.SCRYPT_E_INVALID_PARAMS {
		err = ErrInvalidParams
	}
	return cost, err
}

// cost describes the cost of a derivation, or says that the parameters are not accepted.
func (params Params) cost() string {
	cost, err := params.costs()
	if err != nil {
		return fmt.Sprintf("LogN %d, R %d and P %d are not accepted", params.LogN, params.R, params.P)
	}
	return explained(C.SCRYPT_E_TOO_COSTLY, cost, math.MaxUint64, math.MaxUint64, 0)
}

// Work returns the work of a derivation, which Options.MaxWork limits: 4 * (N + 32) * R * P
// Salsa20/8 cores, where 32 accounts for PBKDF2. It returns math.MaxUint64 if the work is larger,
// and ErrInvalidParams if LogN, R and P are not accepted.
func (params Params) Work() (uint64, error) {
	cost, err := params.costs()
	return uint64(cost.work), err
}
